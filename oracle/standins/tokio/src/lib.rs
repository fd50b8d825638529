//! The real tokio, with three thin covers: `spawn` counts polls and notes
//! panics, `sync::mpsc` notes each send at the moment of the call, and
//! `time::sleep` never ends by itself but only when the driver says so.

pub use real_tokio::*;

use std::future::Future;
use std::panic::{catch_unwind, resume_unwind, AssertUnwindSafe};
use std::pin::Pin;
use std::task::{Context, Poll};

struct Task<F> {
    id: u64,
    future: Pin<Box<F>>,
}

impl<F: Future> Future for Task<F> {
    type Output = F::Output;

    fn poll(mut self: Pin<&mut Self>, cx: &mut Context<'_>) -> Poll<F::Output> {
        observe::polled();
        let id = self.id;
        let future = self.future.as_mut();
        match catch_unwind(AssertUnwindSafe(|| future.poll(cx))) {
            Ok(x) => x,
            Err(e) => {
                let text = observe::take_panic_text().unwrap_or_default();
                observe::record(observe::Raw::Panic { task: id, text });
                resume_unwind(e)
            }
        }
    }
}

pub fn spawn<F>(future: F) -> real_tokio::task::JoinHandle<F::Output>
where
    F: Future + Send + 'static,
    F::Output: Send + 'static,
{
    real_tokio::spawn(Task {
        id: observe::new_task(),
        future: Box::pin(future),
    })
}

pub mod sync {
    pub use real_tokio::sync::*;

    pub mod mpsc {
        pub use real_tokio::sync::mpsc::*;
        use real_tokio::sync::mpsc as real;

        pub struct Sender<T> {
            id: u64,
            inner: real::Sender<T>,
        }

        impl<T> Clone for Sender<T> {
            fn clone(&self) -> Self {
                Self {
                    id: self.id,
                    inner: self.inner.clone(),
                }
            }
        }

        pub fn channel<T>(capacity: usize) -> (Sender<T>, real::Receiver<T>) {
            let (inner, rx) = real::channel(capacity);
            let id = observe::new_channel();
            (Sender { id, inner }, rx)
        }

        impl<T: 'static> Sender<T> {
            pub fn id(&self) -> u64 {
                self.id
            }

            pub fn is_closed(&self) -> bool {
                self.inner.is_closed()
            }

            pub async fn send(&self, value: T) -> Result<(), real::error::SendError<T>> {
                observe::channel_send(self.id, &value);
                self.inner.send(value).await
            }
        }
    }
}

pub mod time {
    use std::future::Future;
    use std::pin::Pin;
    use std::sync::{Arc, Mutex};
    use std::task::{Context, Poll, Waker};
    pub use std::time::{Duration, Instant};

    #[derive(Default)]
    struct Bell {
        fired: bool,
        waker: Option<Waker>,
    }

    static BELLS: Mutex<Vec<(u64, Arc<Mutex<Bell>>)>> = Mutex::new(Vec::new());

    pub struct Sleep {
        millis: u64,
        bell: Arc<Mutex<Bell>>,
    }

    pub fn sleep(duration: Duration) -> Sleep {
        let millis = duration.as_millis() as u64;
        let bell = Arc::new(Mutex::new(Bell::default()));
        let mut bells = BELLS.lock().unwrap();
        // Those of a run that is over are held here alone.
        bells.retain(|(_, x)| Arc::strong_count(x) > 1);
        bells.push((millis, bell.clone()));
        Sleep { millis, bell }
    }

    impl Sleep {
        pub fn reset(self: Pin<&mut Self>, _deadline: Instant) {
            observe::record(observe::Raw::TimerReset(self.millis));
            self.bell.lock().unwrap().fired = false;
        }
    }

    impl Future for Sleep {
        type Output = ();

        fn poll(self: Pin<&mut Self>, cx: &mut Context<'_>) -> Poll<()> {
            let mut bell = self.bell.lock().unwrap();
            if bell.fired {
                return Poll::Ready(());
            }
            bell.waker = Some(cx.waker().clone());
            Poll::Pending
        }
    }

    /// For the driver: end every sleep that was made with this many milliseconds.
    pub fn fire(millis: u64) {
        for (m, bell) in BELLS.lock().unwrap().iter() {
            if *m == millis {
                let mut bell = bell.lock().unwrap();
                bell.fired = true;
                if let Some(waker) = bell.waker.take() {
                    waker.wake();
                }
            }
        }
    }
}
