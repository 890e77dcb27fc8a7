//! Makes a failing script smaller by dropping calls while it still fails.

/// The calls that remain; `fails` holds of them as it did of all.
pub fn shrink<C: Clone>(calls: &[C], fails: &mut dyn FnMut(&[C]) -> bool) -> Vec<C> {
    let mut kept = calls.to_vec();
    let mut chunk = kept.len().max(1);
    loop {
        let mut at = 0;
        let before = kept.len();
        while at < kept.len() {
            let end = (at + chunk).min(kept.len());
            let mut tried = kept.clone();
            tried.drain(at..end);
            if fails(&tried) {
                kept = tried;
            } else {
                at = end;
            }
        }
        if chunk > 1 {
            chunk /= 2;
        } else if kept.len() == before {
            return kept;
        }
    }
}
