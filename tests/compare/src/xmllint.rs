//! xmllint's opinion: what the check accepts is also valid by the DTD of source document 004. Nobody here wrote xmllint.

use crate::report::Input;
use std::borrow::Cow;
use std::fs;
use std::path::{Path, PathBuf};
use std::process::{self, Child, Command, Stdio};
use std::sync::atomic::{AtomicUsize, Ordering};

/// A process is started for so many listings, or for so many bytes: to start one for each would take most of the time.
const MOST_LISTINGS: usize = 250;
const MOST_BYTES: usize = 1 << 25;

/// So many refused listings are told in detail.
const TOLD: usize = 5;

/// Listings on their way to xmllint, and what it said of those before.
pub struct Xmllint {
    dtd: PathBuf,
    /// A folder of its own for the listings; it goes when this goes.
    folder: PathBuf,
    waiting: Batch,
    running: Option<(Child, Batch)>,
    batches: usize,
    pub opinions: Opinions,
}

/// How many listings were validated as they stand, how many with bytes replaced, and how many of both were refused.
#[derive(Clone, Copy, Debug, Default, PartialEq, Eq)]
pub struct Opinions {
    pub whole: usize,
    pub replaced: usize,
    pub refused: usize,
}

/// The listings of one process: each one's name and file.
#[derive(Default)]
struct Batch {
    listings: Vec<(String, PathBuf)>,
    bytes: usize,
}

impl Xmllint {
    pub fn new(root: &Path) -> Result<Xmllint, String> {
        static COUNT: AtomicUsize = AtomicUsize::new(0);
        let count = COUNT.fetch_add(1, Ordering::Relaxed);
        let name = format!("target/compare/xmllint-{}-{count}", process::id());
        let folder = root.join(name);
        fs::create_dir_all(&folder).map_err(|error| failed(&folder, error))?;
        let xmllint = Xmllint {
            dtd: root.join("tests/specimens/ST26SequenceListing_V1_2.dtd"),
            folder,
            waiting: Batch::default(),
            running: None,
            batches: 0,
            opinions: Opinions::default(),
        };
        xmllint.must_refuse("<ST26SequenceListing/>")?;
        Ok(xmllint)
    }

    /// One that refuses nothing would be no opinion.
    fn must_refuse(&self, text: &str) -> Result<(), String> {
        let file = self.folder.join("refused.xml");
        fs::write(&file, text).map_err(|error| failed(&file, error))?;
        let listing = (String::new(), file);
        let status = self.command(std::slice::from_ref(&listing)).status();
        match status.map_err(missing)?.code() {
            // xmllint's number for what isn't valid.
            Some(3) => Ok(()),
            other => Err(format!("xmllint doesn't validate: status {other:?}")),
        }
    }

    /// Asks about a listing, now or later.
    pub fn add(&mut self, input: &Input) -> Result<(), String> {
        let text = as_xml(&input.bytes);
        match text {
            Cow::Borrowed(_) => self.opinions.whole += 1,
            Cow::Owned(_) => self.opinions.replaced += 1,
        }
        let number = self.waiting.listings.len();
        let file = self.folder.join(format!("{}-{number}.xml", self.batches));
        fs::write(&file, text.as_bytes()).map_err(|error| failed(&file, error))?;
        self.waiting.listings.push((input.name.clone(), file));
        self.waiting.bytes += text.len();
        if self.waiting.listings.len() < MOST_LISTINGS && self.waiting.bytes < MOST_BYTES {
            return Ok(());
        }
        self.start()
    }

    /// Asks about all that wait, and prints the opinions; true if none is refused.
    pub fn close(&mut self) -> Result<bool, String> {
        self.start()?;
        self.finish()?;
        let Opinions {
            whole,
            replaced,
            refused,
        } = self.opinions;
        println!(
            "xmllint: {whole} accepted listings validated, {replaced} not UTF-8 and validated \
             with those bytes replaced, {refused} refused"
        );
        Ok(refused == 0)
    }

    /// Starts a process for the listings that wait; it runs beside the comparison.
    fn start(&mut self) -> Result<(), String> {
        self.finish()?;
        let batch = std::mem::take(&mut self.waiting);
        self.batches += 1;
        if !batch.listings.is_empty() {
            let child = self.command(&batch.listings).spawn();
            self.running = Some((child.map_err(missing)?, batch));
        }
        Ok(())
    }

    /// Waits for the process, and asks about each of its listings alone if it refused any.
    fn finish(&mut self) -> Result<(), String> {
        let (mut child, batch) = match self.running.take() {
            Some(running) => running,
            None => return Ok(()),
        };
        if !child.wait().map_err(missing)?.success() {
            let before = self.opinions.refused;
            for listing in &batch.listings {
                self.ask_alone(listing)?;
            }
            if self.opinions.refused == before {
                return Err("xmllint refused some listings, and none of them alone".into());
            }
        }
        for (_, file) in &batch.listings {
            fs::remove_file(file).map_err(|error| failed(file, error))?;
        }
        Ok(())
    }

    fn ask_alone(&mut self, listing: &(String, PathBuf)) -> Result<(), String> {
        let mut command = self.command(std::slice::from_ref(listing));
        let said = command.stderr(Stdio::piped()).output().map_err(missing)?;
        if !said.status.success() {
            self.opinions.refused += 1;
            if self.opinions.refused <= TOLD {
                println!("REFUSED BY XMLLINT: {}", listing.0);
                println!("{}", String::from_utf8_lossy(&said.stderr));
            }
        }
        Ok(())
    }

    fn command(&self, listings: &[(String, PathBuf)]) -> Command {
        let mut command = Command::new("xmllint");
        // `--huge`: a text of more than 10,000,000 bytes is refused otherwise.
        command.args(["--noout", "--nonet", "--huge", "--dtdvalid"]);
        command.arg(&self.dtd);
        command.args(listings.iter().map(|(_, file)| file));
        command.stdin(Stdio::null());
        command.stdout(Stdio::null()).stderr(Stdio::null());
        command
    }
}

impl Drop for Xmllint {
    fn drop(&mut self) {
        // A process may still run where something failed; what can't be cleaned up stays in target.
        if let Some((mut child, _)) = self.running.take() {
            let _ = child.wait();
        }
        let _ = fs::remove_dir_all(&self.folder);
    }
}

/// The listing as XML may have it: document 01 takes high bytes as they stand, XML only where they are UTF-8 and neither U+FFFE
/// nor U+FFFF.
fn as_xml(bytes: &[u8]) -> Cow<'_, str> {
    let is_foreign = |character| matches!(character, '\u{fffe}' | '\u{ffff}');
    let text = String::from_utf8_lossy(bytes);
    if text.contains(is_foreign) {
        return Cow::Owned(text.replace(is_foreign, "\u{fffd}"));
    }
    text
}

fn failed(path: &Path, error: std::io::Error) -> String {
    format!("{}: {error}", path.display())
}

fn missing(error: std::io::Error) -> String {
    format!("xmllint, of Debian's libxml2-utils: {error}")
}

#[cfg(test)]
mod tests {
    use super::*;
    use crate::layout::{root, specimens};

    /// What is said of these listings, all in one process.
    fn opinions(listings: &[&[u8]]) -> Opinions {
        let mut xmllint = Xmllint::new(root()).unwrap();
        for (number, bytes) in listings.iter().enumerate() {
            let input = Input {
                name: format!("number {number}"),
                bytes: bytes.to_vec(),
            };
            xmllint.add(&input).unwrap();
        }
        let close = xmllint.close().unwrap();
        let opinions = xmllint.opinions;
        assert_eq!(close, opinions.refused == 0);
        let folder = xmllint.folder.clone();
        drop(xmllint);
        assert!(!folder.exists());
        opinions
    }

    fn said(whole: usize, replaced: usize, refused: usize) -> Opinions {
        Opinions {
            whole,
            replaced,
            refused,
        }
    }

    /// The specimen with this stretch replaced, which it has.
    fn edited(stretch: &str, by: &[u8]) -> Vec<u8> {
        let specimens = specimens(&root().join("tests/specimens")).unwrap();
        let named = specimens.iter().find(|(name, _)| name == "annex-iii.xml");
        let text = String::from_utf8(named.unwrap().1.clone()).unwrap();
        let (before, after) = text.split_once(stretch).unwrap();
        [before.as_bytes(), by, after.as_bytes()].concat()
    }

    #[test]
    fn what_the_dtd_does_not_have_is_refused() {
        let valid = edited("PAT", b"PAT");
        let misnamed = edited("<INSDSeq_division>PAT</INSDSeq_division>", b"<PAT/>");
        let open = edited("</ST26SequenceListing>", b"");
        assert_eq!(opinions(&[&valid, &valid]), said(2, 0, 0));
        assert_eq!(opinions(&[&valid, &misnamed, &valid]), said(3, 0, 1));
        assert_eq!(opinions(&[&open, &misnamed]), said(2, 0, 2));
        assert_eq!(opinions(&[]), said(0, 0, 0));
    }

    #[test]
    fn bytes_that_are_not_utf_8_are_replaced() {
        let title = "</InventionTitle>";
        let with = |bytes: &[u8]| edited(title, &[bytes, title.as_bytes()].concat());
        let whole = with("\u{e4}\u{80}\u{feff}\u{10ffff}".as_bytes());
        let lone = with(b"\xe4");
        let foreign = with("\u{fffe}\u{ffff}".as_bytes());
        assert_eq!(opinions(&[&whole, &lone, &foreign]), said(1, 2, 0));
        let neither = [&lone[..], b"\xff<"].concat();
        assert_eq!(opinions(&[&neither]), said(0, 1, 1));
    }

    #[test]
    fn full_batches_are_asked_about_and_taken_away() {
        let valid = edited("PAT", b"PAT");
        let wrong = edited("<INSDSeq_division>PAT</INSDSeq_division>", b"");
        let mut listings = vec![&valid[..]; 2 * MOST_LISTINGS + 10];
        listings[MOST_LISTINGS + 7] = &wrong;
        assert_eq!(opinions(&listings), said(2 * MOST_LISTINGS + 10, 0, 1));
    }
}
