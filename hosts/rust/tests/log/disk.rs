//! `Disk`: what a disk may have of files after a power cut; `Cut`: one such state.

use crate::trace::Event;
use std::collections::BTreeMap;

/// Files by their names.
pub type Files = BTreeMap<String, Vec<u8>>;

/// What a disk may have of files after a power cut, whose sectors have this size.
///
/// A sector is written whole. Until its file is synced, it is as it was at any time since the last sync, whatever the
/// other sectors are; what is before a sector that is there, and was never written, is zeros. Names come and go in their
/// order, and count for sure once the folder is synced.
#[derive(Debug, Clone)]
pub struct Disk {
    sector: usize,
    files: Vec<File>,
    // The names that are sure, and those that have changed since then, with their files; None: removed.
    names: BTreeMap<String, usize>,
    renamed: Vec<(String, Option<usize>)>,
    // How many sectors were written.
    clock: u64,
}

#[derive(Debug, Clone, Default)]
struct File {
    durable: Vec<u8>,
    current: Vec<u8>,
    // The contents of each sector since the last sync, with the time of each.
    pending: BTreeMap<usize, Vec<(u64, Vec<u8>)>>,
}

/// One state: how many changes of names have happened, and which content each sector has that isn't sure. 0 is the one
/// that is.
#[derive(Debug, Clone, PartialEq, Eq)]
pub struct Cut {
    names: usize,
    sectors: Vec<usize>,
}

impl Disk {
    pub fn of_sectors(sector: usize) -> Disk {
        Disk {
            sector,
            files: Vec::new(),
            names: BTreeMap::new(),
            renamed: Vec::new(),
            clock: 0,
        }
    }

    /// What the program has done next.
    pub fn take(&mut self, event: &Event) {
        match event {
            Event::Write { file, at, bytes } => self.write(file, *at, bytes),
            Event::Resize { file, size } => self.resize(file, *size),
            Event::Sync { file } => {
                let number = self.number(file);
                let file = &mut self.files[number];
                file.durable.clone_from(&file.current);
                file.pending.clear();
            }
            Event::SyncFolder => self.names = self.names_after(self.renamed.len()),
            Event::Link { from, to } => {
                let number = self.number(from);
                self.renamed.push((to.clone(), Some(number)));
            }
            Event::Unlink { file } => self.renamed.push((file.clone(), None)),
            Event::Said(_) => {}
        }
        if *event == Event::SyncFolder {
            self.renamed.clear();
        }
    }

    // The file of this name, which is made if it isn't there.
    fn number(&mut self, name: &str) -> usize {
        if let Some(number) = self.names_after(self.renamed.len()).get(name) {
            return *number;
        }
        self.files.push(File::default());
        let number = self.files.len() - 1;
        self.renamed.push((name.to_owned(), Some(number)));
        number
    }

    fn names_after(&self, changes: usize) -> BTreeMap<String, usize> {
        let mut names = self.names.clone();
        for (name, number) in &self.renamed[..changes] {
            match number {
                Some(number) => names.insert(name.clone(), *number),
                None => names.remove(name),
            };
        }
        names
    }

    fn write(&mut self, name: &str, at: usize, bytes: &[u8]) {
        let number = self.number(name);
        let file = &mut self.files[number];
        let end = at + bytes.len();
        let was = file.current.len();
        file.current.resize(was.max(end), 0);
        file.current[at..end].copy_from_slice(bytes);
        for sector in at.min(was) / self.sector..end.div_ceil(self.sector) {
            self.clock += 1;
            let range = sector * self.sector..((sector + 1) * self.sector).min(file.current.len());
            let content = (self.clock, file.current[range].to_vec());
            file.pending.entry(sector).or_default().push(content);
        }
    }

    fn resize(&mut self, name: &str, size: usize) {
        let number = self.number(name);
        let was = self.files[number].current.len();
        assert!(
            size >= was,
            "{name} becomes shorter, which isn't rebuilt here"
        );
        self.write(name, was, &vec![0; size - was]);
    }

    // The sectors that aren't sure, with their files.
    fn open(&self) -> impl Iterator<Item = (usize, usize, &Vec<(u64, Vec<u8>)>)> {
        let files = self.files.iter().enumerate();
        files.flat_map(|(number, file)| file.pending.iter().map(move |it| (number, *it.0, it.1)))
    }

    /// States that a power cut may leave now, no more than this, and whether these are all. Beyond it: each that leaves off
    /// at a time; each in which one sector alone is the last, or the first; and others by chance.
    pub fn cuts(&self, most: usize, draw: &mut impl FnMut(usize) -> usize) -> (Vec<Cut>, bool) {
        let choices: Vec<usize> = self.open().map(|it| it.2.len() + 1).collect();
        let names = self.renamed.len();
        let all = choices.iter().try_fold(names + 1, |all, it| {
            all.checked_mul(*it).filter(|it| *it <= most)
        });
        if let Some(all) = all {
            return (
                (0..all).map(|it| numbered(it, names, &choices)).collect(),
                true,
            );
        }
        let mut cuts: Vec<Cut> = (0..=choices.len())
            .flat_map(|it| alone(it, names, &choices))
            .collect();
        cuts.extend((0..=self.clock).rev().map(|it| self.cut_at(it)));
        cuts.dedup();
        cuts.truncate(most / 2);
        let drawn = (cuts.len()..most).map(|_| Cut {
            names: draw(names + 1),
            sectors: choices.iter().map(|it| draw(*it)).collect(),
        });
        let drawn: Vec<Cut> = drawn.collect();
        cuts.extend(drawn);
        (cuts, false)
    }

    // All that was written up to a time, and no more.
    fn cut_at(&self, time: u64) -> Cut {
        let sectors = self
            .open()
            .map(|it| it.2.iter().take_while(|it| it.0 <= time).count());
        Cut {
            names: self.renamed.len(),
            sectors: sectors.collect(),
        }
    }

    /// The files of a state.
    pub fn files(&self, cut: &Cut) -> Files {
        let mut contents: Vec<Vec<u8>> = self.files.iter().map(|it| it.durable.clone()).collect();
        for ((number, sector, pending), chosen) in self.open().zip(&cut.sectors) {
            let Some(chosen) = chosen.checked_sub(1) else {
                continue;
            };
            let (at, bytes) = (sector * self.sector, &pending[chosen].1);
            let content = &mut contents[number];
            content.resize(content.len().max(at + bytes.len()), 0);
            content[at..at + bytes.len()].copy_from_slice(bytes);
        }
        let names = self.names_after(cut.names).into_iter();
        names
            .map(|(name, number)| (name, contents[number].clone()))
            .collect()
    }
}

// The state of this number, if there are so many of names and of each sector.
fn numbered(number: usize, names: usize, choices: &[usize]) -> Cut {
    let mut rest = number / (names + 1);
    let sectors = choices.iter().map(|it| {
        let chosen = rest % it;
        rest /= it;
        chosen
    });
    Cut {
        sectors: sectors.collect(),
        names: number % (names + 1),
    }
}

// That in which this sector is as it was, and all others as they were last; and the other way round.
fn alone(sector: usize, names: usize, choices: &[usize]) -> [Cut; 2] {
    [false, true].map(|is_last| Cut {
        names,
        sectors: choices
            .iter()
            .enumerate()
            .map(|(at, it)| if (at == sector) == is_last { it - 1 } else { 0 })
            .collect(),
    })
}
