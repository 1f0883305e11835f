//! A request on its way: it waits for its permit, then the inner service answers it.
use std::future::Future;
use std::pin::Pin;
use std::task::{ready, Context, Poll};

use http::{Request, Response};
use pin_project_lite::pin_project;
use tower_service::Service;
use twodfq::{Acquire, Permit};

use crate::refused::refused;

pin_project! {
    /// The answer to a request. Dropped before it has a permit, it withdraws the request. Dropped later, it gives the
    /// permit back.
    pub struct PermitFuture<S, B>
    where
        S: Service<Request<B>>,
    {
        #[pin]
        stage: Stage<S, B, S::Future>,
    }
}

pin_project! {
    #[project = StageProjection]
    enum Stage<S, B, T> {
        Waits { acquire: Acquire, next: Option<(S, Request<B>)> },
        // the inner future is dropped before the permit goes back
        Runs { #[pin] running: T, permit: Permit },
        Over,
    }
}

impl<S, B> PermitFuture<S, B>
where
    S: Service<Request<B>>,
{
    pub(crate) fn new(acquire: Acquire, inner: S, request: Request<B>) -> PermitFuture<S, B> {
        PermitFuture { stage: Stage::Waits { acquire, next: Some((inner, request)) } }
    }
}

impl<S, B, R> Future for PermitFuture<S, B>
where
    S: Service<Request<B>, Response = Response<R>>,
    R: Default,
{
    type Output = Result<Response<R>, S::Error>;

    fn poll(self: Pin<&mut Self>, context: &mut Context<'_>) -> Poll<Self::Output> {
        let mut stage = self.project().stage;
        if let StageProjection::Waits { acquire, next } = stage.as_mut().project() {
            let acquired = ready!(Pin::new(acquire).poll(context));
            let next = next.take();
            match acquired {
                Ok(permit) => {
                    let (mut inner, request) = next.expect("it is taken with the permit");
                    let running = inner.call(request);
                    stage.set(Stage::Runs { running, permit });
                }
                Err(cause) => {
                    stage.set(Stage::Over);
                    return Poll::Ready(Ok(refused(cause)));
                }
            }
        }
        let StageProjection::Runs { running, .. } = stage.as_mut().project() else {
            panic!("the answer was given to a poll")
        };
        let answer = ready!(running.poll(context));
        stage.set(Stage::Over); // the permit goes back at once
        Poll::Ready(answer)
    }
}
