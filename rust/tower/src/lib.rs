//! Middleware for tower. Each request waits for a permit in its tenant's turn, and holds the permit while the inner
//! service runs. So a tenant that floods the service queues behind itself, and the others hardly notice.
//!
//! ```
//! use std::convert::Infallible;
//!
//! use http::{Request, Response};
//! use tower::{service_fn, Layer, ServiceExt};
//! use twodfq::{KindId, Permits, Tenant};
//! use twodfq_tower::PermitLayer;
//!
//! /// Whose a request is: a header names the tenant.
//! fn owner(request: &Request<String>) -> (Tenant<'_>, KindId) {
//!     let name = request.headers().get("tenant").and_then(|name| name.to_str().ok());
//!     (name.unwrap_or("anonymous").into(), KindId::FIRST)
//! }
//!
//! # #[tokio::main]
//! # async fn main() {
//! let permits = Permits::builder().workers(8).tenant("acme", 2).tenant("anonymous", 1).open_permits().unwrap();
//! let answer = service_fn(|_: Request<String>| async { Ok::<_, Infallible>(Response::new(String::from("found"))) });
//! let service = PermitLayer::new(permits, owner).layer(answer);
//!
//! let request = Request::builder().header("tenant", "acme").body(String::new()).unwrap();
//! assert_eq!(service.oneshot(request).await.unwrap().into_body(), "found");
//! # }
//! ```
//!
//! `tests/http.rs` has a server of hyper. A router of axum 0.6 takes the layer as it is (not compiled here):
//!
//! ```text
//! fn owner(request: &Request<axum::body::Body>) -> (Tenant<'_>, KindId) { .. }
//!
//! let app = axum::Router::new()
//!     .route("/search", axum::routing::get(search))
//!     .layer(PermitLayer::new(permits, owner));
//! axum::Server::bind(&address).serve(app.into_make_service()).await?;
//! ```
//!
//! A tenant is charged the time from the permit to the end of the inner future. A body that is streamed after that runs
//! without a permit. A client that goes away while its request waits withdraws it, since the server drops the future.

mod future;
mod refused;

use std::mem;
use std::task::{Context, Poll};
use std::time::{Duration, Instant};

use http::{Request, Response};
use tower_layer::Layer;
use tower_service::Service;
use twodfq::{KindId, Permits, Tenant, Terms};

pub use future::PermitFuture;
pub use refused::status;

/// Makes each request wait for a permit. The function `F` returns the tenant and the kind of a request.
///
/// A request that gets no permit is answered with the [`status`] of the cause and an empty body. The
/// [`Cause`](twodfq::Cause) is among the extensions of the answer, for the layers around this layer.
///
/// ```
/// use http::Request;
/// use twodfq::{KindId, Permits};
/// use twodfq_tower::PermitLayer;
///
/// let permits = Permits::builder().tenant("all", 1).open_permits().unwrap();
/// let all = permits.tenant("all").unwrap();
/// let layer = PermitLayer::new(permits, move |_: &Request<String>| (all.into(), KindId::FIRST));
/// ```
///
/// In axum (not compiled here): `Router::new().route("/search", get(search)).layer(PermitLayer::new(permits, owner))`.
#[derive(Clone, Debug)]
pub struct PermitLayer<F> {
    permits: Permits,
    owner: F,
    longest_wait: Option<Duration>,
}

impl<F> PermitLayer<F> {
    /// A layer over these permits. Keep a clone to close them, or to read their status.
    pub fn new<B>(permits: Permits, owner: F) -> PermitLayer<F>
    where
        F: Fn(&Request<B>) -> (Tenant<'_>, KindId),
    {
        PermitLayer { permits, owner, longest_wait: None }
    }

    /// Refuses a request that has waited for this time, by [`Cause::Late`](twodfq::Cause::Late). By default none is.
    ///
    /// ```
    /// use std::time::Duration;
    /// use http::Request;
    /// use twodfq::{KindId, Permits};
    /// use twodfq_tower::PermitLayer;
    ///
    /// let permits = Permits::builder().most_tenants(100).open_permits().unwrap();
    /// let layer = PermitLayer::new(permits, |request: &Request<String>| (request.uri().path().into(), KindId::FIRST));
    /// let layer = layer.longest_wait(Duration::from_secs(2));
    /// ```
    ///
    /// In axum (not compiled here): `router.layer(PermitLayer::new(permits, owner).longest_wait(time))`.
    pub fn longest_wait(mut self, time: Duration) -> PermitLayer<F> {
        self.longest_wait = Some(time);
        self
    }
}

impl<S, F: Clone> Layer<S> for PermitLayer<F> {
    type Service = PermitService<S, F>;

    fn layer(&self, inner: S) -> Self::Service {
        PermitService { inner, layer: self.clone() }
    }
}

/// A service whose requests wait for a permit, as [`PermitLayer`] makes it. In axum a router or a route is the inner
/// service, and the layer wraps it in this service.
#[derive(Clone, Debug)]
pub struct PermitService<S, F> {
    inner: S,
    layer: PermitLayer<F>,
}

impl<S, F, B, R> Service<Request<B>> for PermitService<S, F>
where
    S: Service<Request<B>, Response = Response<R>> + Clone,
    F: Fn(&Request<B>) -> (Tenant<'_>, KindId),
    R: Default,
{
    type Response = Response<R>;
    type Error = S::Error;
    type Future = PermitFuture<S, B>;

    fn poll_ready(&mut self, context: &mut Context<'_>) -> Poll<Result<(), S::Error>> {
        self.inner.poll_ready(context)
    }

    fn call(&mut self, request: Request<B>) -> PermitFuture<S, B> {
        let PermitLayer { permits, owner, longest_wait } = &self.layer;
        let (tenant, kind) = owner(&request);
        let deadline = longest_wait.and_then(|time| Instant::now().checked_add(time));
        let terms = deadline.map_or(Terms::default(), |deadline| Terms::default().deadline(deadline));
        let acquire = permits.acquire_with(tenant, kind, terms);
        // the service that was polled ready goes with the request; its clone was not polled yet
        let next = self.inner.clone();
        let ready = mem::replace(&mut self.inner, next);
        PermitFuture::new(acquire, ready, request)
    }
}
