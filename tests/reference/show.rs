//! Files and outputs as they are shown where something is wrong.

/// Bytes in upper-case hex, at most some hundred.
pub fn hex(bytes: &[u8]) -> String {
    let shown: String = bytes.iter().take(300).map(|byte| format!(" {byte:02X}")).collect();
    shown + if bytes.len() > 300 { " .." } else { "" }
}

/// An output as text; of a long one the part about the place.
pub fn excerpt(output: &[u8], place: usize) -> String {
    if output.len() <= 600 {
        return format!("{:?}", String::from_utf8_lossy(output));
    }
    let from = place.saturating_sub(80);
    let to = output.len().min(from + 300);
    format!("from byte {from} of {}: {:?}", output.len(), String::from_utf8_lossy(&output[from..to]))
}

/// Where two outputs differ.
pub fn difference(found: &[u8], want: &[u8]) -> Option<String> {
    if found == want {
        return None;
    }
    let place = found.iter().zip(want).take_while(|(a, b)| a == b).count();
    Some(format!("  printed   {}\n  should be {}\n", excerpt(found, place), excerpt(want, place)))
}
