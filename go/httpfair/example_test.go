package httpfair_test

import (
	"fmt"
	"log"
	"net/http"
	"net/http/httptest"

	twodfq "twodfq.example/go"
	"twodfq.example/go/httpfair"
)

func ExampleMiddleware() {
	pool, err := twodfq.NewPool(twodfq.Options{
		Workers:     8,
		MostTenants: 1000, // each name is a tenant; a service verifies the name first
		Kinds:       []twodfq.Kind{{Name: "get"}, {Name: "scan", MostRunning: 2}},
	})
	if err != nil {
		log.Fatal(err)
	}
	defer pool.Close()
	fair := httpfair.Middleware{
		Pool:   pool,
		Tenant: func(r *http.Request) string { return r.Header.Get("X-Tenant") },
		Kind: func(r *http.Request) string {
			if r.URL.Path == "/scan" {
				return "scan"
			}
			return "get"
		},
	}
	hello := http.HandlerFunc(func(w http.ResponseWriter, r *http.Request) { fmt.Fprintln(w, "hello", r.Header.Get("X-Tenant")) })
	mux := http.NewServeMux()
	mux.Handle("/", fair.Handler(hello))
	mux.Handle("/metrics", httpfair.Metrics(pool)) // it waits for no turn

	request := httptest.NewRequest("GET", "/scan", nil)
	request.Header.Set("X-Tenant", "acme")
	answer := httptest.NewRecorder()
	mux.ServeHTTP(answer, request)
	fmt.Print(answer.Code, " ", answer.Body)
	// Output: 200 hello acme
}

// A service answers refused requests with bodies of its own.
func ExampleStatus() {
	refuse := func(w http.ResponseWriter, _ *http.Request, err error) {
		w.Header().Set("Content-Type", "application/json")
		w.WriteHeader(httpfair.Status(err))
		fmt.Fprintf(w, "{\"error\": %q}", err)
	}
	answer := httptest.NewRecorder()
	refuse(answer, nil, twodfq.ErrTenantFull) // as Middleware.Refuse
	fmt.Println(answer.Code, answer.Body)
	// Output: 429 {"error": "twodfq: the tenant's part of the room is full"}
}
