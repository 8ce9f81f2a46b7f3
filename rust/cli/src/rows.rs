//! A refusal as the command line says it: in the words of document 01's table, which the viewer has.

use viewer::Refusal;

use crate::failure::Failure;
use crate::files;

/// A log that a call refused.
pub fn refused_log(name: &str, refusal: &Refusal) -> Failure {
    let hint = match refusal {
        Refusal { number: 3, position: 0 } => " (if this is a log's text form, 'log' writes its bytes)",
        _ => "",
    };
    Failure::Log(format!("{}: {refusal}{hint}", files::input_name(name)))
}
