package twodfq

import (
	"bufio"
	"fmt"
	"io"
	"sort"
	"strconv"
	"strings"
	"time"
)

// A metric of the pool.
type metric struct {
	name, kind, help string
	value            func(*Status) string
}

// A metric of each tenant.
type tenantMetric struct {
	name, kind, help string
	write            func(text *bufio.Writer, name, label string, tenant *TenantStatus)
}

var metrics = []metric{
	{"twodfq_workers", "gauge", "Workers that are wanted.", func(s *Status) string { return strconv.Itoa(s.Workers) }},
	{"twodfq_schedulers_total", "counter", "Schedulers that were opened.",
		func(s *Status) string { return decimal(s.Schedulers) }},
	{"twodfq_early_takes_total", "counter", "Requests taken before their time.",
		func(s *Status) string { return decimal(s.Early) }},
	{"twodfq_waits_total", "counter", "Waits of free workers for other requests.",
		func(s *Status) string { return decimal(s.Waits) }},
	{"twodfq_waited_seconds_total", "counter", "What these waits took.",
		func(s *Status) string { return seconds(s.Waited) }},
}

var tenantMetrics = []tenantMetric{
	{"twodfq_weight", "gauge", "The tenant's weight.", number(func(t *TenantStatus) uint64 { return uint64(t.Weight) })},
	{"twodfq_jobs_waiting", "gauge", "Requests that wait.",
		number(func(t *TenantStatus) uint64 { return uint64(t.Waiting) })},
	{"twodfq_jobs_held", "gauge", "Requests that wait since as many of the tenant run as may.",
		number(func(t *TenantStatus) uint64 { return uint64(t.Held) })},
	{"twodfq_jobs_running", "gauge", "Requests that run.",
		number(func(t *TenantStatus) uint64 { return uint64(t.Running) })},
	{"twodfq_jobs_submitted_total", "counter", "Requests accepted.",
		number(func(t *TenantStatus) uint64 { return t.Submitted })},
	{"twodfq_jobs_refused_total", "counter", "Requests refused, by cause.", writeRefused},
	{"twodfq_jobs_cancelled_total", "counter", "Requests withdrawn while they waited.",
		number(func(t *TenantStatus) uint64 { return t.Cancelled })},
	{"twodfq_jobs_late_total", "counter", "Requests withdrawn since their deadlines had passed.",
		number(func(t *TenantStatus) uint64 { return t.Late })},
	{"twodfq_jobs_done_total", "counter", "Requests that ended.", number(func(t *TenantStatus) uint64 { return t.Done })},
	{"twodfq_jobs_panicked_total", "counter", "Jobs that ended by a panic.",
		number(func(t *TenantStatus) uint64 { return t.Panicked })},
	{"twodfq_reports_total", "counter", "Reports of running requests.",
		number(func(t *TenantStatus) uint64 { return t.Reports })},
	{"twodfq_cost_seconds_total", "counter", "What ended requests cost.", writeCost},
	{"twodfq_jobs_wait_seconds", "histogram", "From submit to begin.",
		histogram(func(t *TenantStatus) *Histogram { return &t.Waited })},
	{"twodfq_jobs_run_seconds", "histogram", "From begin to end.",
		histogram(func(t *TenantStatus) *Histogram { return &t.Ran })},
}

// WritePrometheus writes the status in the text format of Prometheus. Status.Gone has the empty tenant name.
func (s *Status) WritePrometheus(to io.Writer) error {
	text := bufio.NewWriter(to)
	for _, m := range metrics {
		head(text, m.name, m.kind, m.help)
		fmt.Fprintf(text, "%s %s\n", m.name, m.value(s))
	}
	labels := make([]string, len(s.Tenants))
	for i := range s.Tenants {
		labels[i] = `tenant="` + escapes.Replace(s.Tenants[i].Name) + `"`
	}
	for _, m := range tenantMetrics {
		head(text, m.name, m.kind, m.help)
		for i := range s.Tenants {
			m.write(text, m.name, labels[i], &s.Tenants[i])
		}
		if m.kind != "gauge" {
			m.write(text, m.name, `tenant=""`, &s.Gone)
		}
	}
	return text.Flush()
}

// The escapes in the value of a label.
var escapes = strings.NewReplacer(`\`, `\\`, `"`, `\"`, "\n", `\n`)

func head(text *bufio.Writer, name, kind, help string) {
	fmt.Fprintf(text, "# HELP %s %s\n# TYPE %s %s\n", name, help, name, kind)
}

func decimal(number uint64) string { return strconv.FormatUint(number, 10) }

func seconds(time time.Duration) string { return strconv.FormatFloat(time.Seconds(), 'f', -1, 64) }

func number(value func(*TenantStatus) uint64) func(*bufio.Writer, string, string, *TenantStatus) {
	return func(text *bufio.Writer, name, label string, tenant *TenantStatus) {
		fmt.Fprintf(text, "%s{%s} %d\n", name, label, value(tenant))
	}
}

func writeCost(text *bufio.Writer, name, label string, tenant *TenantStatus) {
	fmt.Fprintf(text, "%s{%s} %s\n", name, label, seconds(tenant.Cost))
}

func writeRefused(text *bufio.Writer, name, label string, tenant *TenantStatus) {
	causes := make([]string, 0, len(tenant.Refused))
	for cause := range tenant.Refused {
		causes = append(causes, cause)
	}
	sort.Strings(causes)
	for _, cause := range causes {
		fmt.Fprintf(text, "%s{%s,cause=\"%s\"} %d\n", name, label, cause, tenant.Refused[cause])
	}
}

// Writes a histogram, each bucket with the counts of those below it.
func histogram(of func(*TenantStatus) *Histogram) func(*bufio.Writer, string, string, *TenantStatus) {
	return func(text *bufio.Writer, name, label string, tenant *TenantStatus) {
		h, upTo := of(tenant), uint64(0)
		for i, bound := range bounds {
			upTo += h.Counts[i]
			fmt.Fprintf(text, "%s_bucket{%s,le=\"%s\"} %d\n", name, label, seconds(bound), upTo)
		}
		fmt.Fprintf(text, "%s_bucket{%s,le=\"+Inf\"} %d\n", name, label, h.Count())
		fmt.Fprintf(text, "%s_sum{%s} %s\n%s_count{%s} %d\n", name, label, seconds(h.Sum), name, label, h.Count())
	}
}
