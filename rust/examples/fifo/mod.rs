//! A plain pool of threads over one queue, to compare with: the first job in the queue is run first.
use std::collections::VecDeque;
use std::sync::{Arc, Condvar, Mutex};
use std::thread::{self, JoinHandle};

type Job = Box<dyn FnOnce() + Send>;

#[derive(Default)]
struct Queue {
    jobs: VecDeque<Job>,
    is_closed: bool,
}

#[derive(Default)]
struct Shared {
    queue: Mutex<Queue>,
    news: Condvar,
}

pub struct Fifo {
    shared: Arc<Shared>,
    threads: Vec<JoinHandle<()>>,
}

impl Fifo {
    pub fn open(workers: u32) -> Fifo {
        let shared = Arc::<Shared>::default();
        let start = |_| {
            let shared = shared.clone();
            thread::spawn(move || work(&shared))
        };
        let threads = (0..workers).map(start).collect();
        Fifo { shared, threads }
    }

    pub fn submit(&self, job: impl FnOnce() + Send + 'static) {
        let job = Box::new(job);
        self.shared.queue.lock().unwrap().jobs.push_back(job);
        self.shared.news.notify_one();
    }
}

fn work(shared: &Shared) {
    let mut queue = shared.queue.lock().unwrap();
    loop {
        if let Some(job) = queue.jobs.pop_front() {
            drop(queue);
            job();
            queue = shared.queue.lock().unwrap();
        } else if queue.is_closed {
            return;
        } else {
            queue = shared.news.wait(queue).unwrap();
        }
    }
}

impl Drop for Fifo {
    fn drop(&mut self) {
        self.shared.queue.lock().unwrap().is_closed = true;
        self.shared.news.notify_all();
        for thread in self.threads.drain(..) {
            thread.join().expect("a job panicked");
        }
    }
}
