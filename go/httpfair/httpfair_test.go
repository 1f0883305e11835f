package httpfair

import (
	"context"
	"errors"
	"fmt"
	"io"
	"net/http"
	"net/http/httptest"
	"strings"
	"testing"
	"time"

	twodfq "twodfq.example/go"
)

// A server of one worker with three places, of which each tenant may have two. Its handler sends to begun at its begin,
// and ends once end is closed.
type server struct {
	*httptest.Server
	pool       *twodfq.Pool
	begun, end chan struct{}
}

func start(t *testing.T) *server {
	t.Helper()
	pool, err := twodfq.NewPool(twodfq.Options{Workers: 1, Room: 3, RoomPerTenant: 2,
		Tenants: []twodfq.Tenant{{Name: "acme"}, {Name: "globex"}}, Kinds: []twodfq.Kind{{Name: "/get"}, {Name: "/panic"}}})
	if err != nil {
		t.Fatal(err)
	}
	s := &server{pool: pool, begun: make(chan struct{}, 10), end: make(chan struct{})}
	handler := func(w http.ResponseWriter, r *http.Request) {
		s.begun <- struct{}{}
		<-s.end
		if r.URL.Path == "/panic" {
			panic(http.ErrAbortHandler)
		}
		twodfq.PermitFromContext(r.Context()).ReleaseCost(time.Minute)
		fmt.Fprint(w, "hello")
	}
	middleware := Middleware{Pool: pool, Kind: func(r *http.Request) string { return r.URL.Path },
		Tenant: func(r *http.Request) string { return r.Header.Get("Tenant") }}
	s.Server = httptest.NewServer(middleware.Handler(http.HandlerFunc(handler)))
	t.Cleanup(s.Server.Close)
	return s
}

type answer struct {
	status int
	retry  string
	body   string
	err    error
}

// Sends a request of the tenant. The answer comes by the channel.
func (s *server) send(ctx context.Context, tenant, path string) <-chan answer {
	answers := make(chan answer, 1)
	go func() {
		request, err := http.NewRequestWithContext(ctx, "GET", s.URL+path, nil)
		if err != nil {
			answers <- answer{err: err}
			return
		}
		request.Header.Set("Tenant", tenant)
		response, err := http.DefaultClient.Do(request)
		if err != nil {
			answers <- answer{err: err}
			return
		}
		defer response.Body.Close()
		body, err := io.ReadAll(response.Body)
		answers <- answer{response.StatusCode, response.Header.Get("Retry-After"), string(body), err}
	}()
	return answers
}

func (s *server) untilWaiting(t *testing.T, count int) {
	t.Helper()
	for began := time.Now(); s.pool.Status().Waiting != count; time.Sleep(100 * time.Microsecond) {
		if time.Since(began) > time.Minute {
			t.Fatalf("%d wait in place of %d", s.pool.Status().Waiting, count)
		}
	}
}

func wants(t *testing.T, given <-chan answer, status int, retry, body string) {
	t.Helper()
	if got := <-given; got.status != status || got.retry != retry || strings.TrimSpace(got.body) != body || got.err != nil {
		t.Errorf("%+v in place of %d, %s", got, status, body)
	}
}

// Requests are handled one at a time. Those beyond the places of a tenant, or of all tenants, are refused.
func TestRequestsWaitAndAreRefused(t *testing.T) {
	s, ctx := start(t), context.Background()
	first := s.send(ctx, "acme", "/get")
	<-s.begun
	second := s.send(ctx, "acme", "/get")
	s.untilWaiting(t, 1)
	third := s.send(ctx, "acme", "/get")
	s.untilWaiting(t, 2)
	wants(t, s.send(ctx, "acme", "/get"), http.StatusTooManyRequests, "1", "Too Many Requests")
	other := s.send(ctx, "globex", "/get")
	s.untilWaiting(t, 3)
	wants(t, s.send(ctx, "globex", "/get"), http.StatusServiceUnavailable, "1", "Service Unavailable")
	wants(t, s.send(ctx, "hooli", "/get"), http.StatusForbidden, "", "Forbidden")
	wants(t, s.send(ctx, "", "/get"), http.StatusForbidden, "", "Forbidden")
	wants(t, s.send(ctx, "acme", "/put"), http.StatusInternalServerError, "", "Internal Server Error")
	if len(s.begun) != 0 || s.pool.Status().Running != 1 {
		t.Error("a request is handled beside the one that holds the permit")
	}
	close(s.end)
	for _, given := range []<-chan answer{first, second, third, other} {
		wants(t, given, http.StatusOK, "", "hello")
	}
	s.pool.Close()
	wants(t, s.send(ctx, "acme", "/get"), http.StatusServiceUnavailable, "1", "Service Unavailable")
	if cost := s.pool.Status().Tenants[0].Cost; cost != 3*time.Minute {
		t.Errorf("acme is charged %v in place of what its handlers named", cost)
	}
}

// The request of a client that disconnects is withdrawn and never handled. A handler that panics releases its permit.
func TestClientsThatGoAndHandlersThatPanic(t *testing.T) {
	s := start(t)
	first := s.send(context.Background(), "acme", "/panic")
	<-s.begun
	ctx, cancel := context.WithCancel(context.Background())
	gone := s.send(ctx, "globex", "/get")
	s.untilWaiting(t, 1)
	cancel()
	if got := <-gone; !errors.Is(got.err, context.Canceled) {
		t.Errorf("%+v", got)
	}
	s.untilWaiting(t, 0)
	close(s.end)
	if got := <-first; got.err == nil {
		t.Errorf("%+v after a panic", got)
	}
	wants(t, s.send(context.Background(), "globex", "/get"), http.StatusOK, "", "hello")
	s.pool.Close()
	status := s.pool.Status().Tenants
	if status[0].Done != 1 || status[1].Done != 1 || status[1].Cancelled != 1 {
		t.Errorf("%+v", status)
	}
}

// A service may answer refusals by a function of its own.
func TestRefuseOfTheServicesOwn(t *testing.T) {
	s := start(t)
	middleware := Middleware{Pool: s.pool, Tenant: func(*http.Request) string { return "hooli" },
		Refuse: func(w http.ResponseWriter, _ *http.Request, err error) { http.Error(w, err.Error(), http.StatusTeapot) }}
	answer := httptest.NewRecorder()
	middleware.Handler(http.NotFoundHandler()).ServeHTTP(answer, httptest.NewRequest("GET", "/", nil))
	if answer.Code != http.StatusTeapot || !strings.Contains(answer.Body.String(), `kind "" is refused: there is no such kind`) {
		t.Errorf("%d %s", answer.Code, answer.Body)
	}
	s.pool.Close()
}

func TestMiddlewareWithoutTenant(t *testing.T) {
	defer func() {
		if recover() == nil {
			t.Error("a handler of no tenant")
		}
	}()
	Middleware{Pool: &twodfq.Pool{}}.Handler(http.NotFoundHandler())
}

func TestStatuses(t *testing.T) {
	for err, status := range map[error]int{
		twodfq.ErrNoSlot: 503, twodfq.ErrNoMemory: 503, context.DeadlineExceeded: 503, context.Canceled: 503,
		twodfq.ErrCost: 500, errors.New("another"): 500, &twodfq.RefusalError{Cause: twodfq.ErrTenantFull}: 429,
	} {
		if given := Status(err); given != status {
			t.Errorf("%d for %v", given, err)
		}
	}
}

func TestMetrics(t *testing.T) {
	s := start(t)
	answer := httptest.NewRecorder()
	Metrics(s.pool).ServeHTTP(answer, httptest.NewRequest("GET", "/metrics", nil))
	if kind := answer.Header().Get("Content-Type"); !strings.HasPrefix(kind, "text/plain; version=0.0.4") {
		t.Errorf("a text of type %s", kind)
	}
	if !strings.Contains(answer.Body.String(), "\ntwodfq_workers 1\n") {
		t.Error(answer.Body)
	}
	s.pool.Close()
}
