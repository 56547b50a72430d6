// The header under C++17: a manager with an owner that can't be copied and a lock, called from C++.
#include "check.h"
#include "vtdm.h"

#include <mutex>

namespace {

class Manager {
public:
    explicit Manager(std::uint64_t frames) : status(vtdm_create(&manager, frames)) {}
    ~Manager() { vtdm_destroy(&manager); }
    Manager(const Manager &) = delete;
    Manager &operator=(const Manager &) = delete;

    bool is_made() const { return status == VTDM_OK; }

    // Any function of the header, under the lock.
    template <typename Answer, typename... Words, typename... Given>
    Answer call(Answer (*function)(vtdm *, Words...), Given... given) {
        std::lock_guard<std::mutex> guard(lock);
        return function(&manager, static_cast<Words>(given)...);
    }

private:
    vtdm manager = VTDM_INIT;
    std::mutex lock;
    std::uint64_t status;
};

} // namespace

int main() {
    Manager manager(64), refused(15);
    const vtdm_segment segments[] = {{0x100, 1}, {0x200, 2}};
    CHECK(manager.is_made() && !refused.is_made());
    ANSWERS(manager.call(vtdm_domain, false), VTDM_OK, 1);
    ANSWERS(refused.call(vtdm_domain, false), VTDM_ABSENT, 0);
    ANSWERS(manager.call(vtdm_attach, 3, 1), VTDM_OK, 0);
    ANSWERS(manager.call(vtdm_map_list, 1, 0, VTDM_READ, segments, 2), VTDM_OK, 0x1000);
    ANSWERS(manager.call(vtdm_dma, 3, 0x2010, false, true, true), VTDM_OK, 0x200010);
    ANSWERS(manager.call(vtdm_unmap, 1, 0x1000, 3), VTDM_OK, 0);
    ANSWERS(manager.call(vtdm_dma, 3, 0x2010, false, true, true), VTDM_FAULT_READ, 0);
    CHECK(manager.call(vtdm_domain_totals, 1).live == 0);
    return check_end();
}
