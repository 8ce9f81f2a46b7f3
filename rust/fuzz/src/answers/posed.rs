//! What a check is asked, its answer still in pieces.

use reference::forge::Pieces;
use reference::Question;

#[derive(Clone, Debug)]
pub struct Posed {
    pub question: Question,
    pub commitment: Vec<u8>,
    pub pieces: Pieces,
    /// The answer to another question about the same log, if there is a log.
    pub beside: Option<Pieces>,
}
