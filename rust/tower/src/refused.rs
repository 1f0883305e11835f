//! The answer to a request that gets no permit.
use http::{Response, StatusCode};
use twodfq::Cause;

/// The status of the answer to a request that gets no permit for this cause:
///
/// - 429 if the tenant's own requests fill its room;
/// - 503 if the service as a whole can't take it: the permits are closed, the room or the slots for tenants are full,
///   the deadline has passed, or memory is short;
/// - 403 if there is no such tenant, and 400 if its name is not 1 to 256 bytes long;
/// - 500 if the function of the layer named a kind that does not exist.
///
/// ```
/// use http::StatusCode;
/// use twodfq::Cause;
/// use twodfq_tower::status;
///
/// assert_eq!(status(Cause::TenantFull(100)), StatusCode::TOO_MANY_REQUESTS);
/// assert_eq!(status(Cause::TooManyWait(10_000)), StatusCode::SERVICE_UNAVAILABLE);
/// assert_eq!(status(Cause::Closed), StatusCode::SERVICE_UNAVAILABLE);
/// assert_eq!(status(Cause::NoTenant), StatusCode::FORBIDDEN);
/// ```
///
/// In axum (not compiled here) a handler of its own answers alike:
/// `permits.acquire(tenant, kind).await.map_err(|cause| status(cause).into_response())`.
pub fn status(cause: Cause) -> StatusCode {
    match cause {
        Cause::TenantFull(_) => StatusCode::TOO_MANY_REQUESTS,
        Cause::NoTenant => StatusCode::FORBIDDEN,
        Cause::Name => StatusCode::BAD_REQUEST,
        Cause::Kind(_) | Cause::Cost(_) => StatusCode::INTERNAL_SERVER_ERROR,
        _ => StatusCode::SERVICE_UNAVAILABLE,
    }
}

pub(crate) fn refused<R: Default>(cause: Cause) -> Response<R> {
    let mut response = Response::new(R::default());
    *response.status_mut() = status(cause);
    response.extensions_mut().insert(cause);
    response
}
