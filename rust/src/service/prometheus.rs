//! A status in the text format of Prometheus.
use std::fmt::{self, Display, Write};

use super::histogram::Histogram;
use super::status::{Status, TenantStatus};

impl Status {
    /// The status in the text format of Prometheus. [`Status::others`] has an empty tenant's name, and is left out
    /// while it has no counts.
    ///
    /// ```
    /// use twodfq::{KindId, Pool};
    ///
    /// let pool = Pool::builder().tenant("acme", 1).open().unwrap();
    /// pool.submit("acme", KindId::FIRST, || ()).unwrap().join().unwrap();
    /// let text = pool.join().prometheus();
    /// assert!(text.contains("# TYPE twodfq_jobs_done_total counter\ntwodfq_jobs_done_total{tenant=\"acme\"} 1\n"));
    /// assert!(text.contains("twodfq_jobs_run_seconds_bucket{tenant=\"acme\",le=\"+Inf\"} 1\n"));
    /// ```
    pub fn prometheus(&self) -> String {
        let mut text = Text(String::new());
        for (name, kind, help, value) in METRICS {
            text.head(name, kind, help);
            text.line(format_args!("{name} {}", value(self)));
        }
        for (name, kind, help, value) in TENANT_METRICS {
            text.head(name, kind, help);
            for tenant in self.rows(kind == "counter") {
                text.line(format_args!("{name}{{tenant=\"{}\"}} {}", Label(&tenant.name), value(tenant)));
            }
        }
        self.add_refusals(&mut text);
        for (name, help, value) in HISTOGRAMS {
            text.head(name, "histogram", help);
            self.rows(true).for_each(|tenant| text.histogram(name, Label(&tenant.name), value(tenant)));
        }
        text.0
    }

    /// The tenants, and where asked for, the others that have counts.
    fn rows(&self, others: bool) -> impl Iterator<Item = &TenantStatus> {
        let is_any = self.others.submitted + self.others.refused > 0;
        self.tenants.iter().chain(Some(&self.others).filter(|_| others && is_any))
    }

    fn add_refusals(&self, text: &mut Text) {
        const NAME: &str = "twodfq_jobs_refused_total";
        text.head(NAME, "counter", "Jobs given back, by cause.");
        for tenant in self.rows(true) {
            for (cause, count) in &tenant.refused_by {
                let name = Label(&tenant.name);
                text.line(format_args!("{NAME}{{tenant=\"{name}\",cause=\"{cause}\"}} {count}"));
            }
        }
    }
}

struct Text(String);

impl Text {
    fn line(&mut self, words: fmt::Arguments) {
        writeln!(self.0, "{words}").expect("a text takes all that is written");
    }

    fn head(&mut self, name: &str, kind: &str, help: &str) {
        self.line(format_args!("# HELP {name} {help}\n# TYPE {name} {kind}"));
    }

    fn histogram(&mut self, name: &str, tenant: Label, histogram: &Histogram) {
        for (bound, count) in histogram.buckets() {
            let bound = bound as f64 / 1e6;
            self.line(format_args!("{name}_bucket{{tenant=\"{tenant}\",le=\"{bound}\"}} {count}"));
        }
        let (count, sum) = (histogram.count(), Value::Microseconds(histogram.microseconds()));
        self.line(format_args!("{name}_bucket{{tenant=\"{tenant}\",le=\"+Inf\"}} {count}"));
        self.line(format_args!("{name}_sum{{tenant=\"{tenant}\"}} {sum}"));
        self.line(format_args!("{name}_count{{tenant=\"{tenant}\"}} {count}"));
    }
}

/// The value of a label, in which `\`, `"` and the end of a line are escaped.
#[derive(Clone, Copy)]
struct Label<'a>(&'a str);

impl Display for Label<'_> {
    fn fmt(&self, f: &mut fmt::Formatter<'_>) -> fmt::Result {
        self.0.chars().try_for_each(|letter| match letter {
            '\\' => f.write_str("\\\\"),
            '"' => f.write_str("\\\""),
            '\n' => f.write_str("\\n"),
            _ => f.write_char(letter),
        })
    }
}

/// A number, or microseconds that are written as seconds.
enum Value {
    Count(u64),
    Microseconds(u64),
}

impl Display for Value {
    fn fmt(&self, f: &mut fmt::Formatter<'_>) -> fmt::Result {
        match self {
            Value::Count(count) => write!(f, "{count}"),
            Value::Microseconds(time) => write!(f, "{}.{:06}", time / 1_000_000, time % 1_000_000),
        }
    }
}

/// Name, type, help and value.
type Row<T> = (&'static str, &'static str, &'static str, fn(&T) -> Value);

const METRICS: [Row<Status>; 5] = [
    ("twodfq_workers", "gauge", "Workers that are wanted.", |status| Value::Count(status.workers.into())),
    ("twodfq_schedulers_total", "counter", "Schedulers that were opened.", |status| Value::Count(status.schedulers)),
    ("twodfq_early_takes_total", "counter", "Jobs taken before their time.", |status| Value::Count(status.early)),
    ("twodfq_waits_total", "counter", "Waits of free workers for other jobs.", |status| Value::Count(status.waits)),
    ("twodfq_waited_seconds_total", "counter", "What these waits took.", |status| Value::Microseconds(status.waited)),
];

const TENANT_METRICS: [Row<TenantStatus>; 10] = [
    ("twodfq_weight", "gauge", "The tenant's weight.", |tenant| Value::Count(tenant.weight.into())),
    ("twodfq_jobs_waiting", "gauge", "Jobs that wait.", |tenant| Value::Count(tenant.waiting.into())),
    ("twodfq_jobs_running", "gauge", "Jobs that run.", |tenant| Value::Count(tenant.running.into())),
    ("twodfq_jobs_submitted_total", "counter", "Jobs accepted.", |tenant| Value::Count(tenant.submitted)),
    ("twodfq_jobs_cancelled_total", "counter", "Jobs cancelled as they waited.", |tenant| {
        Value::Count(tenant.cancelled)
    }),
    ("twodfq_jobs_late_total", "counter", "Jobs whose deadline passed.", |tenant| Value::Count(tenant.late)),
    ("twodfq_jobs_done_total", "counter", "Jobs that ended.", |tenant| Value::Count(tenant.done)),
    ("twodfq_jobs_panicked_total", "counter", "Jobs that ended by a panic.", |tenant| Value::Count(tenant.panicked)),
    ("twodfq_reports_total", "counter", "Reports of running jobs.", |tenant| Value::Count(tenant.reports)),
    ("twodfq_cost_seconds_total", "counter", "What ended jobs cost.", |tenant| {
        Value::Microseconds(tenant.microseconds)
    }),
];

/// Name, help and value.
type HistogramRow = (&'static str, &'static str, fn(&TenantStatus) -> &Histogram);

const HISTOGRAMS: [HistogramRow; 2] = [
    ("twodfq_jobs_wait_seconds", "From the submit of a job to its start.", |tenant| &tenant.wait_times),
    ("twodfq_jobs_run_seconds", "From the start of a job to its end.", |tenant| &tenant.run_times),
];
