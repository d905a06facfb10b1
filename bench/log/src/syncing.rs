//! What a sync takes, on the disk that is measured.

use std::error::Error;
use std::fs::{self, File};
use std::os::unix::fs::FileExt;
use std::path::Path;
use std::time::{Duration, Instant};

const SYNCS: usize = 500;

/// Writes 2,000 bytes and syncs them, many times, in a file that was laid out.
pub fn run(folder: &Path) -> Result<(), Box<dyn Error>> {
    fs::create_dir_all(folder)?;
    let file = File::create(folder.join("sync"))?;
    file.write_all_at(&vec![0; 2000 * SYNCS], 0)?;
    file.sync_all()?;
    let each: Result<Vec<Duration>, std::io::Error> = (0..SYNCS)
        .map(|place| {
            let begin = Instant::now();
            file.write_all_at(&[b'x'; 2000], 2000 * place as u64)?;
            file.sync_data()?;
            Ok(begin.elapsed())
        })
        .collect();
    let mut each = each?;
    each.sort_unstable();
    let part = |place: usize| 1000.0 * each[place].as_secs_f64();
    println!("sync {:.3} {:.3}", part(SYNCS / 2), part(SYNCS * 99 / 100));
    Ok(())
}
