// Package httpfair serves HTTP requests in their tenants' turns: middleware over a twodfq.Pool, and a handler of its
// metrics.
package httpfair

import (
	"context"
	"errors"
	"net/http"

	twodfq "twodfq.example/go"
)

// Middleware lets each request wait for the turn of its tenant. The request holds a permit of the pool while its
// handler runs, and is charged that time, or the cost that the handler gives to ReleaseCost (twodfq.PermitFromContext).
// A request whose client disconnects while it waits is withdrawn, and is never handled.
type Middleware struct {
	Pool *twodfq.Pool
	// Tenant returns the tenant of a request. It should be an identity that the service has verified: a client that is
	// free to name tenants may take many shares.
	Tenant func(*http.Request) string
	// Kind returns the kind of a request. Nil: all requests are of the kind with the empty name.
	Kind func(*http.Request) string
	// Refuse answers a request that is not handled. Nil: the function Refuse of this package.
	Refuse func(http.ResponseWriter, *http.Request, error)
}

// Handler wraps a handler. It panics where Pool or Tenant is nil.
func (m Middleware) Handler(next http.Handler) http.Handler {
	if m.Pool == nil || m.Tenant == nil {
		panic("httpfair: Middleware without Pool or Tenant")
	}
	kind, refuse := m.Kind, m.Refuse
	if kind == nil {
		kind = func(*http.Request) string { return "" }
	}
	if refuse == nil {
		refuse = Refuse
	}
	return http.HandlerFunc(func(w http.ResponseWriter, r *http.Request) {
		permit, err := m.Pool.Acquire(r.Context(), m.Tenant(r), kind(r))
		if err != nil {
			refuse(w, r, err)
			return
		}
		defer permit.Release()
		next.ServeHTTP(w, r.WithContext(twodfq.ContextWithPermit(r.Context(), permit)))
	})
}

// Status returns the HTTP status for an error of Acquire: 429 where the tenant's part of the room is full, 403 for an
// unknown tenant, 503 where the pool is full or closed or the request's context has ended, and 500 for errors of the
// service, as a kind that the pool does not have.
func Status(err error) int {
	for _, answer := range answers {
		if errors.Is(err, answer.cause) {
			return answer.status
		}
	}
	return http.StatusInternalServerError
}

var answers = []struct {
	cause  error
	status int
}{
	{twodfq.ErrTenantFull, http.StatusTooManyRequests},
	{twodfq.ErrUnknownTenant, http.StatusForbidden},
	{twodfq.ErrName, http.StatusForbidden},
	{twodfq.ErrTooManyWait, http.StatusServiceUnavailable},
	{twodfq.ErrNoSlot, http.StatusServiceUnavailable},
	{twodfq.ErrClosed, http.StatusServiceUnavailable},
	{twodfq.ErrNoMemory, http.StatusServiceUnavailable},
	{context.Canceled, http.StatusServiceUnavailable},
	{context.DeadlineExceeded, http.StatusServiceUnavailable},
}

// Refuse answers with the Status of the error. With 429 and 503 it asks the client to retry after a second.
func Refuse(w http.ResponseWriter, _ *http.Request, err error) {
	status := Status(err)
	if status == http.StatusTooManyRequests || status == http.StatusServiceUnavailable {
		w.Header().Set("Retry-After", "1")
	}
	http.Error(w, http.StatusText(status), status)
}

// Metrics returns a handler that writes the status of the pool in the text format of Prometheus.
func Metrics(pool *twodfq.Pool) http.Handler {
	return http.HandlerFunc(func(w http.ResponseWriter, _ *http.Request) {
		w.Header().Set("Content-Type", "text/plain; version=0.0.4; charset=utf-8")
		status := pool.Status()
		_ = status.WritePrometheus(w) // it fails only where the client has disconnected
	})
}
