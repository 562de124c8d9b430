//! The number of the interface that the linked library has.
use crate::raw;

/// The number of the interface of the library that is linked: [`INTERFACE`](crate::INTERFACE), or this
/// program would not have linked.
///
/// What a call gives back may be a refusal, so that dropping it is warned of:
///
/// ```
/// #![deny(unused_must_use)]
/// let mut gateway = unmavreth::Gateway::new();
/// assert!(!gateway.close_ike(7, unmavreth::Operator::A).is_done());
/// assert!(gateway.handle(&unmavreth::Request::default(), &mut []).number().ok().is_err());
/// ```
///
/// ```compile_fail
/// #![deny(unused_must_use)]
/// let mut gateway = unmavreth::Gateway::new();
/// gateway.close_ike(7, unmavreth::Operator::A);
/// ```
///
/// ```compile_fail
/// #![deny(unused_must_use)]
/// let mut gateway = unmavreth::Gateway::new();
/// gateway.handle(&unmavreth::Request::default(), &mut []);
/// ```
///
/// ```compile_fail
/// #![deny(unused_must_use)]
/// let mut gateway = unmavreth::Gateway::new();
/// gateway.close_ike(7, unmavreth::Operator::A).ok();
/// ```
#[must_use]
pub fn interface() -> u32 {
    // SAFETY: it takes nothing.
    unsafe { raw::unmavreth_interface() }
}
