// What step 4 of a request is given: the request, what its chain says, and what steps 2 and 3 came to.
use crate::request::Request;
use crate::steps::Effect;
use crate::summary::Summary;
use crate::tables::IkeRecord;

/// A request that is done.
pub struct Served<'a> {
    pub request: &'a Request,
    pub summary: &'a Summary<'a>,
    pub update: Effect,
    pub list: Effect,
    /// As steps 1 to 3 left it.
    pub record: &'a IkeRecord,
}
