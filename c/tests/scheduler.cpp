// The class of twodfq.hpp: each call by its reply and its entry, openings that fail, and schedulers that are moved.
// That none is lost or given back twice is seen under AddressSanitizer.
#include <cstdlib>
#include <cstring>
#include <iostream>
#include <type_traits>
#include <utility>

#include "twodfq.hpp"

using namespace two_dfq;

static_assert(std::is_nothrow_move_constructible<Scheduler>::value && std::is_nothrow_move_assignable<Scheduler>::value, "moved");
static_assert(!std::is_copy_constructible<Scheduler>::value && !std::is_copy_assignable<Scheduler>::value, "not copied");

static void want(const char *what, bool is_so) {
    if (is_so) return;
    std::cerr << "scheduler: not so: " << what << "\n";
    std::exit(1);
}

static bool is(const Reply &reply, ReplyKind kind, std::uint32_t request, std::uint64_t first, std::uint64_t second) {
    return reply.kind == kind && reply.request == request && reply.first == first && reply.second == second;
}

static bool is(const Entry &entry, const Entry &other) {
    return entry.kind == other.kind && entry.who == other.who && entry.moment == other.moment && entry.request == other.request &&
        entry.tenant == other.tenant && entry.request_kind == other.request_kind && entry.worker == other.worker &&
        entry.amount == other.amount && entry.label == other.label;
}

static Opening opening() {
    Opening opening;
    opening.workers = 3;
    opening.kinds = 2;
    opening.entries = 100;
    opening.requests = 10;
    opening.estimate = Estimator::declared;
    return opening;
}

// Numbers differ from one another, so that none can pass for another.
static void calls() {
    Scheduler scheduler(opening(), { 1, 2, 3, 4 });
    want("submit", is(scheduler.submit(11, 100, 3, 1, 50, 42), ReplyKind::request, 0, 0, 0));
    want("submit", is(scheduler.submit(11, 100, 3, 1, 50, 43), ReplyKind::request, 1, 0, 0));
    want("its entry", is(scheduler.entry(0), { EntryKind::submit, 11, 100, 0, 3, 1, 0, 50, 42 }));
    const Reply foreseen = scheduler.foresee(101, 2, 51);
    want("foresee", is(foreseen, ReplyKind::foreseen, 0, 50, 0));
    want("what it tells", foreseen.tenant == 3 && foreseen.request_kind == 1 && foreseen.is_eligible && foreseen.has_smaller);
    want("none smaller", !scheduler.foresee(101, 2, 50).has_smaller);
    want("take", is(scheduler.take(12, 101, 2), ReplyKind::run, 0, 50, 42));
    want("its entry", is(scheduler.entry(2), { EntryKind::take, 12, 101, 0, 0, 0, 2, 50, 0 }));
    want("foresee for a busy worker", is(scheduler.foresee(101, 2), ReplyKind::refused_busy, 0, 0, 0));
    want("report", is(scheduler.report(13, 102, 2, 7), ReplyKind::accepted, 0, 0, 0));
    want("its entry", is(scheduler.entry(3), { EntryKind::report, 13, 102, 0, 0, 0, 2, 7, 0 }));
    const twodfq_standing standing = scheduler.status();
    want("status", standing.waiting == 1 && standing.running == 1 && standing.entries == 4 && standing.moment == 102);
    want("done", is(scheduler.done(14, 103, 2, 9), ReplyKind::accepted, 0, 0, 0));
    want("its entry", is(scheduler.entry(4), { EntryKind::done, 14, 103, 0, 0, 0, 2, 9, 0 }));
    want("withdraw", is(scheduler.withdraw(15, 104, 1), ReplyKind::withdrawn, 0, 0, 43));
    want("its entry", is(scheduler.entry(5), { EntryKind::withdraw, 15, 104, 1, 0, 0, 0, 0, 0 }));
    want("weight", is(scheduler.weight(16, 105, 2, 5), ReplyKind::accepted, 0, 0, 0));
    want("its entry", is(scheduler.entry(6), { EntryKind::weight, 16, 105, 0, 2, 0, 0, 5, 0 }));
    want("workers", is(scheduler.workers(17, 106, 1), ReplyKind::accepted, 0, 0, 0));
    want("its entry", is(scheduler.entry(7), { EntryKind::workers, 17, 106, 0, 0, 0, 0, 1, 0 }));
    want("close", is(scheduler.close(18, 107), ReplyKind::accepted, 0, 0, 0));
    want("its entry", is(scheduler.entry(8), { EntryKind::close, 18, 107, 0, 0, 0, 0, 0, 0 }));
    want("no entry", is(scheduler.entry(9), { EntryKind::none, 0, 0, 0, 0, 0, 0, 0, 0 }));

    const Reply refused = scheduler.submit(11, 108, 0, 0, 1, 0);
    want("refused", is(refused, ReplyKind::refused_closed, 0, 0, 0) && refused.refused());
    want("its text", std::strcmp(refused.message(), twodfq_reply_message(TWODFQ_REFUSED_CLOSED)) == 0);
    want("drained is no refusal", !scheduler.take(12, 108, 0).refused());
}

static void fails(const char *what, const Opening &opening, const std::vector<std::uint32_t> &weights, OpenStatus status) {
    try {
        Scheduler scheduler(opening, weights);
    } catch (const OpenError &error) {
        want(what, error.status() == status);
        want(error.what(), std::strcmp(error.what(), twodfq_open_message(static_cast<std::uint32_t>(status))) == 0);
        return;
    }
    want(what, false);
}

static Opening with(std::uint32_t Opening::*number, std::uint32_t value) {
    Opening changed = opening();
    changed.*number = value;
    return changed;
}

// Each number of the opening arrives where it belongs: it alone is out of its limits, and the status says so.
static void openings() {
    fails("workers", with(&Opening::workers, 4097), { 1 }, OpenStatus::workers);
    fails("no tenant", opening(), {}, OpenStatus::tenants);
    fails("weight", opening(), { 1, 100001 }, OpenStatus::weight);
    fails("kinds", with(&Opening::kinds, 65), { 1 }, OpenStatus::kinds);
    fails("entries", with(&Opening::entries, 3), { 1 }, OpenStatus::entries);
    fails("requests", with(&Opening::requests, 0), { 1 }, OpenStatus::requests);
    Opening changed = opening();
    changed.initial = 0;
    fails("initial", changed, { 1 }, OpenStatus::initial);
    changed = opening();
    changed.policy = static_cast<Policy>(9);
    fails("policy", changed, { 1 }, OpenStatus::policy);
    changed = opening();
    changed.estimate = static_cast<Estimator>(9);
    fails("estimate", changed, { 1 }, OpenStatus::estimate);
    Scheduler defaults(Opening(), { 1 });
    want("the defaults open", defaults.status().kind == 0);
    Scheduler keeps(with(&Opening::keep, 1), { 1 });
    keeps.submit(0, 0, 0, 0, 1, 0);
    keeps.submit(0, 0, 0, 0, 1, 0);
    want("one entry is kept", keeps.entry(0).kind == EntryKind::none && keeps.entry(0).amount == 1);
}

static void moves() {
    Scheduler one(opening(), { 1 });
    one.submit(0, 0, 0, 0, 1, 42);
    Scheduler other(std::move(one));
    want("the request moved", other.status().waiting == 1);
    want("nothing stays", one.status().kind == TWODFQ_NO_SCHEDULER && one.take(0, 0, 0).kind == ReplyKind::no_scheduler);
    want("which is no success", one.take(0, 0, 0).refused());
    Scheduler third(opening(), { 1, 1 });
    third = std::move(other);
    want("the request moved on", third.take(0, 0, 0).second == 42);
    Scheduler &self = third;
    third = std::move(self);
    want("moved to itself it stays", third.status().running == 1);
    one = Scheduler(opening(), { 1 });
    want("one that was moved from is used again", one.status().kind == 0);
}

int main() {
    calls();
    openings();
    moves();
    std::cout << "scheduler: each call of C++ is that of C; an opening that fails throws; what is moved is held once\n";
}
