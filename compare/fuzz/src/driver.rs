//! The driver in C, as a child process that makes the same calls.

use std::io::{BufWriter, Read, Write};
use std::path::Path;
use std::process::{Child, ChildStdin, Command, Stdio};

/// A running driver.
pub struct Driver {
    child: Child,
    stream: BufWriter<ChildStdin>,
}

impl Driver {
    /// Starts it.
    pub fn start(program: &Path) -> Result<Driver, String> {
        let mut child = Command::new(program)
            .stdin(Stdio::piped())
            .stdout(Stdio::piped())
            // The library allocates nothing that could leak, and the search for leaks is not allowed everywhere.
            .env("ASAN_OPTIONS", "detect_leaks=0")
            .spawn()
            .map_err(|error| format!("cannot start the driver as {}: {error}", program.display()))?;
        let stream = child.stdin.take().expect("the input was asked for");
        Ok(Driver {
            child,
            stream: BufWriter::with_capacity(1 << 16, stream),
        })
    }

    /// Hands it a call. An error means that it has ended; [`Driver::finish`] says how.
    pub fn send(&mut self, record: &[u8]) -> Result<(), String> {
        self.stream
            .write_all(record)
            .map_err(|error| format!("the driver takes no more calls: {error}"))
    }

    /// Waits until it has made all calls, so many. Gives what it says at its end.
    pub fn finish(self, calls: usize) -> Result<String, String> {
        let Driver { mut child, stream } = self;
        // If this fails the driver has ended already, and its status says more.
        let _ = stream.into_inner();
        let mut said = String::new();
        let mut output = child.stdout.take().expect("the output was asked for");
        output
            .read_to_string(&mut said)
            .map_err(|error| format!("the driver's output: {error}"))?;
        let status = child.wait().map_err(|error| format!("the driver: {error}"))?;
        match said.strip_prefix(&format!("{calls} calls, ")) {
            Some(_) if status.success() => Ok(said.trim_end().to_string()),
            _ => Err(format!(
                "the driver was given {calls} calls; it ended with {status}: {said}"
            )),
        }
    }
}

#[cfg(test)]
mod tests {
    use super::Driver;
    use std::path::Path;

    /// Plays a script of the shell as the driver.
    fn finished(script: &str, calls: usize) -> Result<String, String> {
        let program = std::env::temp_dir().join(format!("fuzz-driver-{}-{}", std::process::id(), script.len()));
        std::fs::write(&program, format!("#!/bin/sh\n{script}\n")).unwrap();
        let mode = std::os::unix::fs::PermissionsExt::from_mode(0o755);
        std::fs::set_permissions(&program, mode).unwrap();
        let driver = Driver::start(&program).and_then(|mut driver| {
            driver.send(b"record")?;
            driver.finish(calls)
        });
        std::fs::remove_file(&program).unwrap();
        driver
    }

    #[test]
    fn the_end_of_the_driver_is_judged() {
        assert_eq!(
            finished("cat >/dev/null; echo 7 calls, all well", 7),
            Ok("7 calls, all well".to_string())
        );
        assert!(finished("cat >/dev/null; echo '6 calls, too few'", 7).is_err());
        assert!(finished("cat >/dev/null; echo '7 calls, but'; exit 1", 7).is_err());
        assert!(finished("cat >/dev/null; kill -SEGV $$", 7).is_err());
        assert!(Driver::start(Path::new("no/such/driver")).is_err());
    }
}
