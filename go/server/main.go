// Server is an HTTP server that many tenants share. GET /sleep/5ms occupies a worker for 5 milliseconds. The header
// X-Tenant names the tenant. The kind is "short", or "long" from 20 milliseconds on; each tenant may have one long
// request running. /metrics is for Prometheus, and /debug/vars has the same status as JSON. SIGINT and SIGTERM end the
// server after it has answered all accepted requests.
//
//	go run ./server -listen localhost:8080 -workers 4
//	curl -H 'X-Tenant: acme' localhost:8080/sleep/5ms
package main

import (
	"context"
	"expvar"
	"flag"
	"fmt"
	"log"
	"net/http"
	"os/signal"
	"strings"
	"syscall"
	"time"

	twodfq "twodfq.example/go"
	"twodfq.example/go/httpfair"
)

const long = 20 * time.Millisecond

func open(workers int) (*twodfq.Pool, error) {
	return twodfq.NewPool(twodfq.Options{Workers: workers, MostTenants: 1000,
		Kinds: []twodfq.Kind{{Name: "short"}, {Name: "long", MostRunning: 1}}})
}

// The handler of all paths.
func handler(pool *twodfq.Pool) http.Handler {
	fair := httpfair.Middleware{Pool: pool, Kind: kind,
		Tenant: func(r *http.Request) string { return r.Header.Get("X-Tenant") }}
	mux := http.NewServeMux()
	mux.Handle("/sleep/", fair.Handler(http.HandlerFunc(sleep)))
	mux.Handle("/metrics", httpfair.Metrics(pool))
	mux.Handle("/debug/vars", expvar.Handler())
	return mux
}

func duration(r *http.Request) (time.Duration, error) {
	return time.ParseDuration(strings.TrimPrefix(r.URL.Path, "/sleep/"))
}

func kind(r *http.Request) string {
	if time, err := duration(r); err == nil && time >= long {
		return "long"
	}
	return "short"
}

func sleep(w http.ResponseWriter, r *http.Request) {
	wanted, err := duration(r)
	if err != nil {
		http.Error(w, err.Error(), http.StatusBadRequest)
		return
	}
	select {
	case <-time.After(wanted):
		fmt.Fprintln(w, "slept", wanted)
	case <-r.Context().Done(): // the client has disconnected
	}
}

// Serves until the context ends, and then until all accepted requests are answered.
func serve(ctx context.Context, server *http.Server, pool *twodfq.Pool) error {
	failed := make(chan error, 1)
	go func() { failed <- server.ListenAndServe() }()
	select {
	case err := <-failed:
		return err
	case <-ctx.Done():
	}
	rest, cancel := context.WithTimeout(context.Background(), 10*time.Second)
	defer cancel()
	if err := server.Shutdown(rest); err != nil {
		return err
	}
	return pool.Shutdown(rest)
}

func main() {
	listen := flag.String("listen", "localhost:8080", "where to listen")
	workers := flag.Int("workers", 4, "how many requests are handled at once")
	flag.Parse()
	pool, err := open(*workers)
	if err != nil {
		log.Fatal(err)
	}
	expvar.Publish("twodfq", expvar.Func(func() any { return pool.Status() }))
	ctx, stop := signal.NotifyContext(context.Background(), syscall.SIGINT, syscall.SIGTERM)
	defer stop()
	if err := serve(ctx, &http.Server{Addr: *listen, Handler: handler(pool)}, pool); err != nil {
		log.Fatal(err)
	}
}
