//! A server of hyper under the layer, and a client of hyper over the loopback address.
use std::convert::Infallible;
use std::net::SocketAddr;
use std::sync::atomic::{AtomicBool, Ordering};
use std::sync::Arc;
use std::time::{Duration, Instant};

use hyper::client::HttpConnector;
use hyper::service::make_service_fn;
use hyper::{Body, Client, Request, Response, Server, StatusCode};
use tokio::time;
use tower::{service_fn, Layer, Service, ServiceExt};
use twodfq::{Cause, KindId, Permits, Tenant, TenantStatus};
use twodfq_tower::PermitLayer;

/// The time of a request of the flood.
const LONG: Duration = Duration::from_millis(30);

fn owner(request: &Request<Body>) -> (Tenant<'_>, KindId) {
    let name = request.headers().get("tenant").and_then(|name| name.to_str().ok());
    (name.unwrap_or("anonymous").into(), KindId::FIRST)
}

/// `/long` takes its time, and `/panic` ends badly.
async fn answer(request: Request<Body>) -> Result<Response<Body>, Infallible> {
    match request.uri().path() {
        "/long" => time::sleep(LONG).await,
        "/panic" => panic!("a request that panics"),
        _ => {}
    }
    Ok(Response::new(Body::from("done")))
}

/// Serves until the test ends.
fn serve(permits: &Permits) -> SocketAddr {
    let service = PermitLayer::new(permits.clone(), owner).layer(service_fn(answer));
    let accepted = make_service_fn(move |_| {
        let service = service.clone();
        async { Ok::<_, Infallible>(service) }
    });
    let server = Server::bind(&([127, 0, 0, 1], 0).into()).serve(accepted);
    let address = server.local_addr();
    tokio::spawn(server);
    address
}

#[derive(Clone)]
struct Caller {
    client: Client<HttpConnector>,
    address: SocketAddr,
    tenant: &'static str,
}

impl Caller {
    fn new(address: SocketAddr, tenant: &'static str) -> Caller {
        Caller { client: Client::new(), address, tenant }
    }

    async fn call(&self, path: &str) -> hyper::Result<StatusCode> {
        let request = Request::get(format!("http://{}{path}", self.address)).header("tenant", self.tenant);
        self.client.request(request.body(Body::empty()).unwrap()).await.map(|response| response.status())
    }
}

/// Waits until the tenant's status is so.
async fn until(permits: &Permits, tenant: usize, stands: impl Fn(&TenantStatus) -> bool) {
    let begun = Instant::now();
    while !stands(&permits.status().tenants[tenant]) {
        assert!(begun.elapsed() < Duration::from_secs(20), "{:?}", permits.status());
        time::sleep(Duration::from_millis(1)).await;
    }
}

/// Floods the server until it is told to end, and counts the answers and the refusals.
async fn flood(caller: Caller, goes_on: Arc<AtomicBool>) -> (u32, u32) {
    let (mut answered, mut refused) = (0, 0);
    while goes_on.load(Ordering::SeqCst) {
        match caller.call("/long").await.unwrap() {
            StatusCode::OK => answered += 1,
            StatusCode::TOO_MANY_REQUESTS => {
                refused += 1;
                time::sleep(Duration::from_millis(20)).await;
            }
            other => panic!("{other}"),
        }
    }
    (answered, refused)
}

#[tokio::test(flavor = "multi_thread", worker_threads = 2)]
async fn a_flood_is_refused_and_a_trickle_beside_it_is_not() {
    const WAITING: u32 = 32;
    let builder = Permits::builder().workers(2).tenant("flood", 1).tenant("trickle", 1);
    let permits = builder.room(64).open_permits().unwrap(); // of which a flood gets the half
    let address = serve(&permits);
    let goes_on = Arc::new(AtomicBool::new(true));
    let callers = (0..60).map(|_| Caller::new(address, "flood"));
    let floods: Vec<_> = callers.map(|caller| tokio::spawn(flood(caller, goes_on.clone()))).collect();
    until(&permits, 0, |flood| flood.waiting == WAITING).await;

    let trickle = Caller::new(address, "trickle");
    let mut longest = Duration::ZERO;
    for _ in 0..15 {
        let begun = Instant::now();
        assert_eq!(trickle.call("/").await.unwrap(), StatusCode::OK);
        longest = longest.max(begun.elapsed());
    }
    goes_on.store(false, Ordering::SeqCst);

    let one_queue = LONG * WAITING / 2; // the wait in one queue before two permits
    assert!(longest < one_queue / 2, "{longest:?}, and one queue takes {one_queue:?}");
    let (mut answered, mut refused) = (0, 0);
    for flood in floods {
        let (some, others) = flood.await.unwrap();
        answered += some;
        refused += others;
    }
    assert!(answered > 0 && refused > 0);
    let status = permits.status();
    assert_eq!((status.tenants[0].refused, status.tenants[1].refused), (refused.into(), 0));
}

#[tokio::test]
async fn a_client_that_goes_away_while_it_waits_is_withdrawn() {
    let permits = Permits::builder().workers(1).tenant("acme", 1).open_permits().unwrap();
    let caller = Caller::new(serve(&permits), "acme");
    let held = permits.acquire("acme", KindId::FIRST).await.unwrap();
    let leaves = caller.clone();
    let request = tokio::spawn(async move { leaves.call("/").await });
    until(&permits, 0, |acme| acme.waiting == 1).await;
    request.abort();
    until(&permits, 0, |acme| acme.waiting == 0).await;
    assert_eq!(permits.status().tenants[0].cancelled, 1);
    drop(held);
    assert_eq!(caller.call("/").await.unwrap(), StatusCode::OK);
    until(&permits, 0, |acme| acme.done == 2).await; // the held request, and this one
}

#[tokio::test]
async fn closed_it_answers_who_waits_and_refuses_who_comes() {
    let permits = Permits::builder().workers(1).tenant("acme", 1).open_permits().unwrap();
    let caller = Caller::new(serve(&permits), "acme");
    let held = permits.acquire("acme", KindId::FIRST).await.unwrap();
    let waits = caller.clone();
    let request = tokio::spawn(async move { waits.call("/").await });
    until(&permits, 0, |acme| acme.waiting == 1).await;
    permits.close();
    assert_eq!(caller.call("/").await.unwrap(), StatusCode::SERVICE_UNAVAILABLE);
    drop(held);
    assert_eq!(request.await.unwrap().unwrap(), StatusCode::OK);
}

#[tokio::test]
async fn whoever_is_no_tenant_is_forbidden() {
    let permits = Permits::builder().tenant("acme", 1).open_permits().unwrap();
    let caller = Caller::new(serve(&permits), "globex");
    assert_eq!(caller.call("/").await.unwrap(), StatusCode::FORBIDDEN);
}

#[tokio::test]
async fn a_request_that_waits_too_long_is_refused() {
    let permits = Permits::builder().workers(1).tenant("anonymous", 1).open_permits().unwrap();
    let _held = permits.acquire("anonymous", KindId::FIRST).await.unwrap();
    let layer = PermitLayer::new(permits, owner).longest_wait(Duration::from_millis(5));
    let response = layer.layer(service_fn(answer)).oneshot(Request::new(Body::empty())).await.unwrap();
    assert_eq!((response.status(), response.extensions().get()), (StatusCode::SERVICE_UNAVAILABLE, Some(&Cause::Late)));
}

#[tokio::test]
async fn the_cause_is_among_the_extensions() {
    let permits = Permits::builder().tenant("acme", 1).open_permits().unwrap();
    let service = PermitLayer::new(permits, owner).layer(service_fn(answer));
    let response = service.oneshot(Request::new(Body::empty())).await.unwrap();
    assert_eq!(response.extensions().get(), Some(&Cause::NoTenant)); // anonymous
}

#[tokio::test]
async fn the_permit_goes_back_with_the_answer() {
    let permits = Permits::builder().tenant("anonymous", 1).open_permits().unwrap();
    let mut service = PermitLayer::new(permits.clone(), owner).layer(service_fn(answer));
    let mut request = Box::pin(service.call(Request::new(Body::empty())));
    assert_eq!(request.as_mut().await.unwrap().status(), StatusCode::OK);
    assert_eq!(permits.status().running, 0); // while the request is kept
}

#[tokio::test]
async fn a_permit_comes_back_from_a_request_that_panics() {
    let permits = Permits::builder().workers(1).tenant("acme", 1).open_permits().unwrap();
    let caller = Caller::new(serve(&permits), "acme");
    assert!(caller.call("/panic").await.is_err());
    assert_eq!(caller.call("/").await.unwrap(), StatusCode::OK);
    until(&permits, 0, |acme| (acme.done, acme.panicked) == (2, 1)).await;
}
