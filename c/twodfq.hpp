// The calls of twodfq.h as a class of C++ that owns its scheduler. The arguments of each call, their units and ranges,
// and its replies stand in twodfq.h. Nothing here is proved.
//
// C++11 is enough, so that this header goes wherever twodfq.h goes. An opening that fails throws, so that there is no
// Scheduler without a scheduler for callers to ask about. A refusal is a reply like others, and throws nothing.
//
// The namespace is two_dfq, since twodfq is the name of C's handle.
#ifndef TWODFQ_HPP
#define TWODFQ_HPP

#include <cstdint>
#include <exception>
#include <vector>

#include "twodfq.h"

namespace two_dfq {

/// Which waiting request a worker takes.
enum class Policy : std::uint32_t {
    wfq = TWODFQ_WFQ,
    wf2q = TWODFQ_WF2Q,
    msf2q = TWODFQ_MSF2Q,
    two_dfq = TWODFQ_2DFQ,
    two_dfq_plus = TWODFQ_2DFQ_PLUS
};

/// How the cost of a request is estimated before it is done.
enum class Estimator : std::uint32_t {
    declared = TWODFQ_DECLARED,
    recent = TWODFQ_RECENT,
    pessimistic = TWODFQ_PESSIMISTIC
};

/// The configuration of a scheduler without its weights: the numbers of twodfq_opening, with their ranges. The defaults
/// are those of Rust and Go.
struct Opening {
    std::uint32_t workers = 4;
    std::uint32_t kinds = 1;
    std::uint32_t entries = 1000000;
    std::uint32_t requests = 10000;
    Policy policy = Policy::two_dfq_plus;
    Estimator estimate = Estimator::pessimistic;
    std::uint64_t initial = 1000;
    std::uint32_t keep = 0;
};

/// Why no scheduler is opened.
enum class OpenStatus : std::uint32_t {
    policy = TWODFQ_OPEN_POLICY,
    estimate = TWODFQ_OPEN_ESTIMATE,
    no_memory = TWODFQ_OPEN_NO_MEMORY,
    workers = TWODFQ_OPEN_WORKERS,
    tenants = TWODFQ_OPEN_TENANTS,
    weight = TWODFQ_OPEN_WEIGHT,
    kinds = TWODFQ_OPEN_KINDS,
    pairs = TWODFQ_OPEN_PAIRS,
    entries = TWODFQ_OPEN_ENTRIES,
    requests = TWODFQ_OPEN_REQUESTS,
    initial = TWODFQ_OPEN_INITIAL
};

/// Thrown where no scheduler is opened.
class OpenError : public std::exception {
public:
    explicit OpenError(OpenStatus status) noexcept : status_(status) {}
    OpenStatus status() const noexcept { return status_; }
    /// The text of twodfq_open_message.
    const char *what() const noexcept override { return twodfq_open_message(static_cast<std::uint32_t>(status_)); }

private:
    OpenStatus status_;
};

/// The kind of a reply.
enum class ReplyKind : std::uint32_t {
    request = TWODFQ_REQUEST,
    run = TWODFQ_RUN,
    accepted = TWODFQ_ACCEPTED,
    idle = TWODFQ_IDLE,
    drained = TWODFQ_DRAINED,
    retired = TWODFQ_RETIRED,
    withdrawn = TWODFQ_WITHDRAWN,
    nothing = TWODFQ_NOTHING,
    foreseen = TWODFQ_FORESEEN,
    refused_closed = TWODFQ_REFUSED_CLOSED,
    refused_tenant = TWODFQ_REFUSED_TENANT,
    refused_kind = TWODFQ_REFUSED_KIND,
    refused_cost = TWODFQ_REFUSED_COST,
    refused_slots = TWODFQ_REFUSED_SLOTS,
    refused_full = TWODFQ_REFUSED_FULL,
    refused_worker = TWODFQ_REFUSED_WORKER,
    refused_busy = TWODFQ_REFUSED_BUSY,
    refused_not_running = TWODFQ_REFUSED_NOT_RUNNING,
    refused_falling = TWODFQ_REFUSED_FALLING,
    refused_weight = TWODFQ_REFUSED_WEIGHT,
    refused_workers = TWODFQ_REFUSED_WORKERS,
    refused_not_waiting = TWODFQ_REFUSED_NOT_WAITING,
    no_scheduler = TWODFQ_NO_SCHEDULER ///< of a Scheduler from which another was moved, and of no other
};

/// A reply. The meaning of request, first and second stands at each kind in twodfq.h; numbers not used there are 0.
struct Reply {
    ReplyKind kind;
    std::uint32_t request;
    std::uint64_t first, second;
    /// Of a foreseen request.
    std::uint32_t tenant, request_kind;
    /// Whether a foreseen request is eligible for the worker; else no tenant's head is.
    bool is_eligible;
    /// Whether the head of some tenant is eligible for the worker, with an estimate below the one that was asked about.
    bool has_smaller;

    /// Whether the call is refused, and has changed nothing.
    bool refused() const noexcept { return kind >= ReplyKind::refused_closed; }
    /// The text of twodfq_reply_message.
    const char *message() const noexcept { return twodfq_reply_message(static_cast<std::uint32_t>(kind)); }
};

/// The call that an entry of the history holds.
enum class EntryKind : std::uint32_t {
    submit = TWODFQ_ENTRY_SUBMIT,
    take = TWODFQ_ENTRY_TAKE,
    report = TWODFQ_ENTRY_REPORT,
    done = TWODFQ_ENTRY_DONE,
    close = TWODFQ_ENTRY_CLOSE,
    weight = TWODFQ_ENTRY_WEIGHT,
    workers = TWODFQ_ENTRY_WORKERS,
    withdraw = TWODFQ_ENTRY_WITHDRAW,
    none = TWODFQ_ENTRY_NONE ///< no kept entry has the index; amount: the index of the first kept entry
};

/// An entry of the history. The numbers that it has stand at each kind in twodfq.h; the others are 0.
struct Entry {
    EntryKind kind;
    std::uint32_t who;
    std::uint64_t moment;
    std::uint32_t request, tenant, request_kind, worker;
    std::uint64_t amount, label;
};

/// A scheduler, which is moved and not copied. As in C, one call at a time is made on it, also of those that change
/// nothing: no call is const, and threads that share a scheduler keep it under a mutex. A Scheduler from which another
/// was moved answers no_scheduler.
class Scheduler {
public:
    /// Opens a scheduler with one weight a tenant, or throws an OpenError. No later call takes memory.
    Scheduler(const Opening &opening, const std::vector<std::uint32_t> &weights) {
        const auto policy = static_cast<std::uint32_t>(opening.policy);
        const auto estimate = static_cast<std::uint32_t>(opening.estimate);
        const twodfq_opening numbers = { opening.workers, opening.kinds, opening.entries, opening.requests, policy, estimate,
            opening.initial, opening.keep };
        const std::uint32_t none = 0; // an empty vector may have no address, and C wants one
        const std::uint32_t *first = weights.empty() ? &none : weights.data();
        const std::uint32_t status = twodfq_open(&handle_, &numbers, first, weights.size());
        if (status != TWODFQ_OPENED) throw OpenError(static_cast<OpenStatus>(status));
    }
    ~Scheduler() { twodfq_free(&handle_); }

    Scheduler(Scheduler &&other) noexcept { take_over(other); }
    Scheduler &operator=(Scheduler &&other) noexcept {
        if (this == &other) return *this;
        twodfq_free(&handle_);
        take_over(other);
        return *this;
    }
    Scheduler(const Scheduler &) = delete;
    Scheduler &operator=(const Scheduler &) = delete;

    /// A request comes, and gets the next number.
    Reply submit(std::uint32_t who, std::uint64_t moment, std::uint32_t tenant, std::uint32_t kind, std::uint64_t declared,
        std::uint64_t label) noexcept {
        return reply(twodfq_submit(&handle_, who, moment, tenant, kind, declared, label));
    }
    /// A worker asks for work.
    Reply take(std::uint32_t who, std::uint64_t moment, std::uint32_t worker) noexcept {
        return reply(twodfq_take(&handle_, who, moment, worker));
    }
    /// The worker names the use of its request so far.
    Reply report(std::uint32_t who, std::uint64_t moment, std::uint32_t worker, std::uint64_t used) noexcept {
        return reply(twodfq_report(&handle_, who, moment, worker, used));
    }
    /// The worker's request has ended, and this is its measured cost: at least 1, as twodfq.h says.
    Reply done(std::uint32_t who, std::uint64_t moment, std::uint32_t worker, std::uint64_t cost) noexcept {
        return reply(twodfq_done(&handle_, who, moment, worker, cost));
    }
    /// Nothing more is submitted; workers that sleep have to be woken to learn it.
    Reply close(std::uint32_t who, std::uint64_t moment) noexcept { return reply(twodfq_close(&handle_, who, moment)); }
    /// The tenant has this weight from now on.
    Reply weight(std::uint32_t who, std::uint64_t moment, std::uint32_t tenant, std::uint32_t weight) noexcept {
        return reply(twodfq_weight(&handle_, who, moment, tenant, weight));
    }
    /// From now on there are `count` workers, those with lower numbers.
    Reply workers(std::uint32_t who, std::uint64_t moment, std::uint32_t count) noexcept {
        return reply(twodfq_workers(&handle_, who, moment, count));
    }
    /// A request that waits is withdrawn.
    Reply withdraw(std::uint32_t who, std::uint64_t moment, std::uint32_t request) noexcept {
        return reply(twodfq_withdraw(&handle_, who, moment, request));
    }
    /// Foresees a take by the worker at this moment; it changes nothing. `below`: an estimate in microseconds.
    Reply foresee(std::uint64_t moment, std::uint32_t worker, std::uint64_t below = 0) noexcept {
        return reply(twodfq_foresee(&handle_, moment, worker, below));
    }
    /// The entry of the history with this index.
    Entry entry(std::uint64_t index) noexcept {
        const twodfq_line line = twodfq_entry(&handle_, index);
        return { static_cast<EntryKind>(line.kind), line.who, line.moment, line.request, line.tenant, line.request_kind, line.worker,
            line.amount, line.label };
    }
    /// The status of the scheduler after its last entry.
    twodfq_standing status() noexcept { return twodfq_status(&handle_); }

private:
    static Reply reply(const twodfq_reply &numbers) noexcept {
        return { static_cast<ReplyKind>(numbers.kind), numbers.request, numbers.first, numbers.second, numbers.tenant,
            numbers.request_kind, numbers.is_eligible != 0, numbers.has_smaller != 0 };
    }
    // Of a handle and its copy only one is used: the other holds no scheduler from here on.
    void take_over(Scheduler &other) noexcept {
        handle_ = other.handle_;
        other.handle_ = TWODFQ_NONE;
    }

    twodfq handle_ = TWODFQ_NONE;
};

} // namespace two_dfq

#endif
