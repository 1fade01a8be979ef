//! The protocol analyser tshark, asked about sub-TLVs in captured LSPs.

use std::fs;
use std::path::Path;
use std::process::Command;

use crate::capture::{capture, lsp_frame, mt_capability};
use crate::dissection::dissected;

/// A frame with an LSP, in which each sub-TLV has an MT-Capability TLV of its own.
pub fn framed(sub_tlvs: &[Vec<u8>]) -> Result<Vec<u8>, String> {
    let tlvs = sub_tlvs.iter().map(|sub_tlv| mt_capability(sub_tlv)).collect::<Result<Vec<_>, String>>()?;
    Ok(lsp_frame(1, &tlvs.concat()))
}

/// The lines of each frame; the capture stays in the file.
pub fn dissected_by_tshark(file: &Path, frames: &[Vec<u8>]) -> Result<Vec<String>, String> {
    fs::write(file, capture(frames)).map_err(|why| format!("{}: {why}", file.display()))?;
    let output = Command::new("tshark").args(["-n", "-T", "pdml", "-r"]).arg(file).output();
    let output = output.map_err(|why| format!("tshark does not start: {why}"))?;
    if !output.status.success() {
        return Err(format!("tshark: {}\n{}", output.status, String::from_utf8_lossy(&output.stderr)));
    }
    let found = dissected(&String::from_utf8_lossy(&output.stdout));
    if found.len() != frames.len() {
        return Err(format!("tshark: {} frames of {} are there", found.len(), frames.len()));
    }
    Ok(found)
}
