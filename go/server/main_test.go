package main

import (
	"context"
	"errors"
	"net/http"
	"net/http/httptest"
	"strings"
	"testing"

	twodfq "twodfq.example/go"
)

func get(handler http.Handler, tenant, path string) (int, string) {
	request := httptest.NewRequest("GET", path, nil)
	request.Header.Set("X-Tenant", tenant)
	answer := httptest.NewRecorder()
	handler.ServeHTTP(answer, request)
	return answer.Code, answer.Body.String()
}

func TestAnswers(t *testing.T) {
	pool, err := open(2)
	if err != nil {
		t.Fatal(err)
	}
	server := handler(pool)
	for _, example := range []struct {
		tenant, path string
		status       int
		body         string
	}{
		{"acme", "/sleep/1ms", 200, "slept 1ms\n"},
		{"globex", "/sleep/20ms", 200, "slept 20ms\n"},
		{"acme", "/sleep/long", 400, "time: invalid duration \"long\"\n"},
		{"", "/sleep/1ms", 403, "Forbidden\n"},
		{"acme", "/none", 404, "404 page not found\n"},
	} {
		if status, body := get(server, example.tenant, example.path); status != example.status || body != example.body {
			t.Errorf("%+v: %d %s", example, status, body)
		}
	}
	if _, text := get(server, "", "/metrics"); !strings.Contains(text, "twodfq_jobs_done_total{tenant=\"acme\"} 2\n") {
		t.Error(text)
	}
	for path, wanted := range map[string]string{"/sleep/19ms": "short", "/sleep/20ms": "long", "/sleep/": "short"} {
		if kind := kind(httptest.NewRequest("GET", path, nil)); kind != wanted {
			t.Errorf("%s is of kind %s", path, kind)
		}
	}
	pool.Close()
}

// A server ends with its context, and then accepts no request. A server that can't listen returns an error.
func TestServe(t *testing.T) {
	pool, err := open(1)
	if err != nil {
		t.Fatal(err)
	}
	if err := serve(context.Background(), &http.Server{Addr: "localhost:none"}, pool); err == nil {
		t.Error("it listens at no port")
	}
	ctx, cancel := context.WithCancel(context.Background())
	cancel()
	if err := serve(ctx, &http.Server{Addr: "localhost:0", Handler: handler(pool)}, pool); err != nil {
		t.Error(err)
	}
	if _, err := pool.Acquire(context.Background(), "acme", "short"); !errors.Is(err, twodfq.ErrClosed) {
		t.Errorf("error %v once it has ended", err)
	}
}
