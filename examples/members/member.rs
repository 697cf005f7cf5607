// A member in Rust, through a proxy, by resetd_member.rs and docs/SERVICES.md, with the files of member.c.
//
// usage: member NODE unix:PATH|HOST:PORT FOLDER    (made by rustc -O member.rs -L FOLDER_OF_THE_LIBRARY -l static=resetd_member)
use std::fs::{self, File, OpenOptions, TryLockError};
use std::io::{BufRead, BufReader, ErrorKind, Read, Result, Write};
use std::net::TcpStream;
use std::os::unix::{fs::FileExt, net::UnixStream};
use std::{env, process, thread, time::Duration};

mod resetd_member;
use resetd_member::*;

const SECOND: Duration = Duration::from_secs(1);
const SILENT_SECONDS: u32 = 45; // a proxy that is there sends a view every 15 seconds
const WATCH: &str = "{\"op\":\"watch\"}\n";
const SHOW: &str = "{\"op\":\"show\"}\n";

/// What a call put into its room.
fn text(call: impl FnOnce(*mut u8, usize, &mut usize) -> u32) -> Vec<u8> {
    let (mut out, mut length) = (vec![0; MOST_TEXT], 0);
    assert_eq!(call(out.as_mut_ptr(), out.len(), &mut length), OK);
    out.truncate(length);
    out
}

/// A call's result; none if there is no such file.
fn if_there<T>(result: Result<T>) -> Result<Option<T>> {
    match result {
        Err(why) if why.kind() == ErrorKind::NotFound => Ok(None),
        result => result.map(Some),
    }
}

/// The bytes of a file; none if there is no file.
fn read(path: &str) -> Result<Vec<u8>> { Ok(if_there(fs::read(path))?.unwrap_or_default()) }

/// Syncs a file or a folder, if it is there.
fn sync(path: &str) -> Result<()> { if_there(File::open(path))?.map_or(Ok(()), |file| file.sync_all()) }

/// Replaces all that comes after the first bytes of a file.
fn write_at(path: &str, size: usize, bytes: &[u8]) -> Result<()> {
    let file = OpenOptions::new().write(true).create(true).truncate(false).open(path)?;
    file.set_len(size as u64)?;
    file.write_all_at(bytes, size as u64)
}

/// Replaces a file as a whole, durably if it is to be synced.
fn replace(path: &str, bytes: &[u8], is_synced: bool) -> Result<()> {
    let new_path = format!("{path}.new");
    fs::write(&new_path, bytes)?;
    if is_synced { sync(&new_path)? }
    fs::rename(&new_path, path)?;
    if is_synced { sync(".") } else { Ok(()) }
}

/// Holds the folder while the file is open, so that no other process is this member.
fn lock(folder: &str) -> Result<File> {
    let lock = OpenOptions::new().write(true).create(true).truncate(false).open("lock")?;
    match lock.try_lock() {
        Err(TryLockError::WouldBlock) => {
            eprintln!("process {} works with {folder}", String::from_utf8_lossy(&read("lock")?).trim());
            process::exit(1);
        }
        result => result?,
    }
    write_at("lock", 0, format!("{}\n", process::id()).as_bytes())?;
    Ok(lock)
}

/// The tag that was refused last. One that replaces it meanwhile is left for the next call.
fn take_refused() -> Result<Vec<u8>> {
    if_there(fs::rename("refused", "refused.taken"))?;
    let tag = read("refused.taken")?;
    if_there(fs::remove_file("refused.taken"))?;
    Ok(tag.trim_ascii().to_vec())
}

trait Connection: Read + Write {}
impl<T: Read + Write> Connection for T {}

/// Connects. A read takes at most a second.
fn connect(address: &str) -> Result<BufReader<Box<dyn Connection>>> {
    let connection: Box<dyn Connection> = if let Some(path) = address.strip_prefix("unix:") {
        let connection = UnixStream::connect(path)?;
        connection.set_read_timeout(Some(SECOND))?;
        Box::new(connection)
    } else {
        let connection = TcpStream::connect(address)?;
        connection.set_read_timeout(Some(SECOND))?;
        Box::new(connection)
    };
    Ok(BufReader::new(connection))
}

/// Sends a line. If the connection has ended, the next read reports it.
fn send(proxy: &mut BufReader<Box<dyn Connection>>, line: &str) { let _ = proxy.get_mut().write_all(line.as_bytes()); }

struct Member {
    node: u8,
    boot: Vec<u8>, // the name of this boot
    work: Work,
    start: Vec<u8>, // as resetd_judge takes it
    start_file: String,
    history_file: String,
    is_start_read: bool, // this process has not written the start file yet
}

impl Member {
    /// Syncs the member's files, since the previous process may have been killed before its sync, and reads them.
    fn load(node: u8) -> Result<Member> {
        let (start_file, history_file) = (format!("start-{node}.json"), format!("start-{node}.history"));
        for path in ["work", &start_file, &history_file, "."] { sync(path)? }
        let boot = fs::read("/proc/sys/kernel/random/boot_id")?.trim_ascii().to_vec();
        let epoch = String::from_utf8_lossy(&read("work")?).trim().parse();
        let kept = read(&start_file)?;
        let start = text(|out, room, length| unsafe {
            resetd_carried(node, kept.as_ptr(), kept.len(), boot.as_ptr(), boot.len(), out, room, length)
        });
        let work = Work { is_there: epoch.is_ok(), epoch: epoch.unwrap_or(0) };
        Ok(Member { node, boot, work, start, start_file, history_file, is_start_read: true })
    }

    /// Replaces the start file. The first write of a process is always synced: after a power cut the text of an earlier version, which
    /// counts in any boot, must not come back.
    fn write_start(&mut self, bytes: &[u8], is_synced: bool) -> Result<()> {
        replace(&self.start_file, bytes, is_synced || self.is_start_read)?;
        self.is_start_read = false;
        Ok(())
    }

    /// Drops the work and begins an epoch. The start file says on the disk that nothing is begun.
    fn begin(&mut self, epoch: u64) -> Result<()> {
        replace("work", format!("{epoch}\n").as_bytes(), true)?; // the common start itself would stand here
        self.work = Work { is_there: true, epoch };
        let loaded = text(|out, room, length| unsafe {
            resetd_loaded(self.node, epoch, self.boot.as_ptr(), self.boot.len(), out, room, length)
        });
        self.write_start(&loaded, false)?;
        self.start = text(|out, room, length| unsafe { resetd_begun(self.node, epoch, out, room, length) });
        println!("member {}: starts anew, epoch {epoch}", self.node);
        Ok(())
    }

    /// Publishes the run. Returns whether a message was refused whose sender can't come to the same run.
    fn talk(&self, epoch: u64, view: &[u8]) -> Result<bool> {
        let tag = text(|out, room, length| unsafe {
            resetd_tag(view.as_ptr(), view.len(), self.node, self.start.as_ptr(), self.start.len(), b"".as_ptr(), 0, out, room, length)
        });
        let name = if tag.is_empty() { "-".into() } else { String::from_utf8_lossy(&tag) };
        replace("run", format!("{epoch} {name}\n").as_bytes(), false)?;
        let refused = take_refused()?;
        Ok(unsafe { resetd_are_parted(tag.as_ptr(), tag.len(), refused.as_ptr(), refused.len()) })
    }

    /// Does what a view asks for. Returns the order to send.
    fn judge(&mut self, view: &[u8]) -> Result<Option<String>> {
        let (history, mut out, mut judged) = (read(&self.history_file)?, vec![0; MOST_TEXT], Judged::default());
        let status = unsafe {
            resetd_judge(view.as_ptr(), view.len(), self.node, self.start.as_ptr(), self.start.len(), history.as_ptr(), history.len(),
                &self.work, out.as_mut_ptr(), out.len(), &mut judged)
        };
        if status != OK || judged.due != TALK { if_there(fs::remove_file("run"))?; }
        if status == NO_NODE { return Ok(None) }
        assert_eq!(status, OK, "a view or a file does not read");
        let (start, line) = out[..judged.start_length + judged.line_length].split_at(judged.start_length);
        if !line.is_empty() {
            write_at(&self.history_file, judged.history_size, line)?;
            sync(&self.history_file)?;
            if judged.history_size == 0 { sync(".")? }
        }
        if !start.is_empty() {
            self.write_start(start, judged.due == BEGIN)?;
            self.start = start.to_vec();
        }
        if judged.due == BEGIN { self.begin(judged.epoch)? }
        let op = match judged.due {
            BEGIN => "confirm",
            RESET => "reset",
            TALK if self.talk(judged.epoch, view)? => "reset",
            _ => return Ok(None),
        };
        Ok(Some(format!("{{\"op\":\"{op}\",\"node\":{},\"epoch\":{}}}\n", self.node, judged.epoch)))
    }

    /// Watches, and judges each view, until the connection ends.
    fn follow(&mut self, mut proxy: BufReader<Box<dyn Connection>>) -> Result<()> {
        let (mut line, mut silence, mut is_ordered) = (Vec::new(), 0, false);
        send(&mut proxy, WATCH);
        while silence < SILENT_SECONDS {
            match proxy.read_until(b'\n', &mut line) {
                Err(why) if why.kind() == ErrorKind::WouldBlock => {
                    silence += 1;
                    if fs::exists("refused")? { send(&mut proxy, SHOW) }
                    continue;
                }
                Ok(_) if line.ends_with(b"\n") => silence = 0,
                _ => return Ok(()),
            }
            if !line.starts_with(b"{\"accepted\":") { // the answer to the order: judge a view from after it
                let answer = String::from_utf8_lossy(&line);
                assert!(!answer.starts_with("{\"fault\":") || answer.contains("OutOfMemory"), "the proxy answers {answer}");
                is_ordered = false;
                send(&mut proxy, SHOW);
            } else if !is_ordered { // otherwise the view may be older than the order
                if let Some(order) = self.judge(&line)? {
                    is_ordered = true;
                    send(&mut proxy, &order);
                }
            }
            line.clear();
        }
        Ok(())
    }
}

fn main() -> Result<()> {
    let arguments: Vec<String> = env::args().collect();
    let [_, node, address, folder] = &arguments[..] else {
        eprintln!("usage: member NODE unix:PATH|HOST:PORT FOLDER");
        process::exit(2);
    };
    fs::create_dir_all(folder)?;
    env::set_current_dir(folder)?;
    let _lock = lock(folder)?;
    let mut member = Member::load(node.parse().expect("a node"))?;
    if_there(fs::remove_file("run"))?; // before the first view nothing is known
    loop {
        if let Ok(proxy) = connect(address) { member.follow(proxy)? }
        thread::sleep(Duration::from_millis(300));
    }
}
