//! The path digests of a log's versions, for whoever looks for the first one that is wrong.

use reference::graph::{incoming_digests, outgoing_digests, Graph};
use reference::hex::to_hex;
use reference::host::Host;

use crate::calls;
use crate::command::Words;
use crate::failure::{Done, Failure};
use crate::files;
use crate::rows;

/// The proved library exports no call for them.
const ORIGIN: &str = "# worked out by the independent Rust version, whose commitment for this log is the proved library's\n";

pub fn run(words: &Words) -> Done {
    let name = words.plain(0);
    let log = files::read_log(name)?;
    let commitment = calls::commitment(&log).map_err(|refusal| rows::refused_log(name, &refusal))?;
    let differs = || Failure::Log("the Rust version differs from the proved library: this is a defect of the Rust version".to_string());
    let records = reference::log::read(&log).map_err(|_| differs())?;
    if Host::new(&records).commitment() != commitment {
        return Err(differs());
    }
    let versions = Graph::new(&records).versions;
    let mut text = ORIGIN.to_string();
    for (which, digests) in [("incoming", incoming_digests(&versions)), ("outgoing", outgoing_digests(&versions))] {
        for (version, digest) in versions.iter().zip(digests) {
            text += &format!("{which} {} {} {}\n", version.name.entity, version.name.time, to_hex(&digest));
        }
    }
    files::write("-", text.as_bytes())
}
