//! Before anything else: what was compiled is the published text, each file with its probe and nothing more.

use std::path::Path;

pub fn check() -> Result<(), String> {
    let folder = std::env::var("AV_METRICS_SRC").map_err(|_| "AV_METRICS_SRC names no folder".to_string())?;
    for copy in published::COPIES.iter() {
        let path = Path::new(&folder).join(copy.path);
        let text = std::fs::read(&path).map_err(|e| format!("{}: {}", path.display(), e))?;
        let rest = copy.text.strip_prefix(&text[..]);
        if text.is_empty() || rest != Some(copy.probe) {
            return Err(format!("{} is not what was compiled", copy.path));
        }
    }
    Ok(())
}
