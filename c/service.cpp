// A service in C++, as service.c is one in C: producers submit jobs, and workers run them, over one scheduler. Each
// call is made under the service's mutex, and workers with nothing to do sleep at its condition variable. Each job has
// to be run once.
#include <chrono>
#include <condition_variable>
#include <cstdint>
#include <cstdlib>
#include <iostream>
#include <mutex>
#include <thread>
#include <vector>

#include "twodfq.hpp"

using two_dfq::Reply;
using two_dfq::ReplyKind;

namespace {

constexpr std::uint32_t worker_count = 8, producer_count = 4, tenant_count = 64;
constexpr std::uint32_t each = 20000, job_count = producer_count * each;

std::uint64_t microseconds() {
    const auto now = std::chrono::steady_clock::now().time_since_epoch();
    return static_cast<std::uint64_t>(std::chrono::duration_cast<std::chrono::microseconds>(now).count());
}

void want(const char *what, const Reply &reply, ReplyKind kind) {
    if (reply.kind == kind) return;
    std::cerr << "service in C++: not so: " << what << ": " << reply.message() << "\n";
    std::abort();
}

class Service {
public:
    Service(const two_dfq::Opening &opening, const std::vector<std::uint32_t> &weights) : scheduler_(opening, weights) {}

    void submit(std::uint32_t producer, std::uint32_t job) {
        std::unique_lock<std::mutex> held(lock_);
        const Reply reply = scheduler_.submit(worker_count + producer, microseconds(), job % tenant_count, 0, 1, job);
        held.unlock();
        want("a job is submitted", reply, ReplyKind::request);
        news_.notify_one();
    }

    // The worker's next job, or drained at the end. It sleeps while nothing waits.
    Reply next(std::uint32_t worker) {
        std::unique_lock<std::mutex> held(lock_);
        for (;;) {
            const Reply reply = scheduler_.take(worker, microseconds(), worker);
            if (reply.kind != ReplyKind::idle) return reply;
            sleeps_++;
            news_.wait(held);
        }
    }

    void done(std::uint32_t worker, std::uint64_t cost) {
        std::lock_guard<std::mutex> held(lock_);
        want("a job is done", scheduler_.done(worker, microseconds(), worker, cost), ReplyKind::accepted);
    }

    void close() {
        std::unique_lock<std::mutex> held(lock_);
        want("the service closes", scheduler_.close(0, microseconds()), ReplyKind::accepted);
        held.unlock();
        news_.notify_all(); // workers that sleep have to learn that nothing more comes
    }

    // How often a worker slept; called when no worker runs.
    std::uint64_t sleeps() const { return sleeps_; }

private:
    std::mutex lock_; // of the members below
    std::condition_variable news_;
    two_dfq::Scheduler scheduler_;
    std::uint64_t sleeps_ = 0;
};

void produce(Service &service, std::uint32_t producer) {
    for (std::uint32_t i = 0; i < each; i++) {
        service.submit(producer, producer * each + i);
        if (i % 1000 == 0) std::this_thread::sleep_for(std::chrono::milliseconds(1)); // so that workers run out of work, too
    }
}

// Runs jobs until the service is drained; a job is known by its label, and here it only counts.
void work(Service &service, std::uint32_t worker, std::vector<unsigned char> &runs) {
    for (;;) {
        const Reply reply = service.next(worker);
        if (reply.kind == ReplyKind::drained) return;
        want("a worker is given a job", reply, ReplyKind::run);
        const std::uint64_t begun = microseconds();
        runs[reply.second]++;
        service.done(worker, microseconds() - begun);
    }
}

void join(std::vector<std::thread> &threads) {
    for (std::thread &thread : threads) thread.join();
}

void serve() {
    two_dfq::Opening opening;
    opening.workers = worker_count;
    opening.entries = 3 * job_count + 1; // a submit, a take and a done for each, and the close
    opening.requests = job_count;
    opening.policy = two_dfq::Policy::two_dfq;
    opening.estimate = two_dfq::Estimator::recent;
    opening.initial = 10;
    std::vector<std::uint32_t> weights;
    for (std::uint32_t tenant = 0; tenant < tenant_count; tenant++) weights.push_back(1 + tenant % 4);

    Service service(opening, weights);
    std::vector<unsigned char> runs(job_count); // how often each job was run
    std::vector<std::thread> workers, producers;
    for (std::uint32_t i = 0; i < worker_count; i++) workers.emplace_back([&service, &runs, i] { work(service, i, runs); });
    for (std::uint32_t i = 0; i < producer_count; i++) producers.emplace_back([&service, i] { produce(service, i); });
    join(producers);
    service.close();
    join(workers);

    for (unsigned char count : runs) {
        if (count == 1) continue;
        std::cerr << "service in C++: a job was run " << static_cast<int>(count) << " times\n";
        std::abort();
    }
    std::cout << "service in C++: " << job_count << " jobs by " << worker_count << " workers, each run once; a worker slept "
              << (service.sleeps() ? "now and then" : "never") << "\n";
}

} // namespace

int main() {
    try {
        serve();
    } catch (const two_dfq::OpenError &error) {
        std::cerr << "service in C++: no scheduler: " << error.what() << "\n";
        return 1;
    }
}
