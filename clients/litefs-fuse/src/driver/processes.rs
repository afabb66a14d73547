//! The process of a thread, as `/proc` tells it.

use std::fs;

/// What tells the process of a thread by its number. A `/proc` of other numbers than this program's own tells nothing.
pub fn processes() -> Box<dyn Fn(u32) -> Option<u32>> {
    match is_of_our_numbers() {
        true => Box::new(process_of),
        false => Box::new(|_| None),
    }
}

fn is_of_our_numbers() -> bool {
    fs::read_link("/proc/self").is_ok_and(|name| name.as_os_str() == std::process::id().to_string().as_str())
}

fn process_of(thread: u32) -> Option<u32> {
    let status = fs::read_to_string(format!("/proc/{thread}/status")).ok()?;
    status.lines().find_map(|line| line.strip_prefix("Tgid:"))?.trim().parse().ok()
}

#[cfg(test)]
mod tests {
    use super::*;

    #[test]
    fn a_thread_is_of_its_process() {
        let thread = std::thread::spawn(|| {
            let own = fs::read_link("/proc/thread-self").unwrap();
            process_of(own.file_name().unwrap().to_str().unwrap().parse().unwrap())
        });
        assert_eq!(thread.join().unwrap(), Some(std::process::id()));
        assert!(is_of_our_numbers());
    }

    #[test]
    fn a_thread_that_is_gone_is_of_none() {
        assert_eq!(process_of(u32::MAX), None);
    }
}
