//! The terminal: every key as it comes and nothing echoed, on a screen of its own, and all as it was again however the program ends. These are the
//! only lines of the command that call C functions, those of the C library that Rust's own library links.
use super::screen::Size;
use std::ffi::{c_int, c_ulong, c_void};
use std::io;
use std::sync::OnceLock;
use std::sync::atomic::{AtomicBool, Ordering};

/// A terminal's settings as the C library lays them out; none of them is looked at here. They have 60 bytes on Linux.
#[repr(C, align(8))]
#[derive(Clone, Copy)]
struct Settings([u8; 256]);

/// What a terminal says of its window.
#[repr(C)]
#[derive(Default)]
struct Window {
    rows: u16,
    columns: u16,
    width: u16,
    height: u16,
}

/// What is asked of an input, and what it has.
#[repr(C)]
struct Asked {
    fd: c_int,
    events: i16,
    has: i16,
}

unsafe extern "C" {
    fn tcgetattr(fd: c_int, settings: *mut Settings) -> c_int;
    fn tcsetattr(fd: c_int, when: c_int, settings: *const Settings) -> c_int;
    fn cfmakeraw(settings: *mut Settings);
    fn ioctl(fd: c_int, request: c_ulong, ...) -> c_int;
    fn signal(number: c_int, handler: usize) -> usize;
    fn poll(asked: *mut Asked, count: c_ulong, milliseconds: c_int) -> c_int;
    fn __errno_location() -> *mut c_int;
    fn raise(number: c_int) -> c_int;
    fn write(fd: c_int, bytes: *const c_void, count: usize) -> isize;
}

const INPUT: c_int = 0;
const OUTPUT: c_int = 1;
const AFTER_OUTPUT: c_int = 1; // TCSADRAIN
const WINDOW: c_ulong = 0x5413; // TIOCGWINSZ
const READABLE: i16 = 1; // POLLIN
const DEFAULT: usize = 0; // SIG_DFL
const STOP: c_int = 19; // SIGSTOP
const KEYBOARD_STOP: c_int = 20; // SIGTSTP
const RESIZED: c_int = 28; // SIGWINCH
/// SIGHUP, SIGINT, SIGQUIT and SIGTERM end the program, once the terminal is as it was.
const ENDING: [c_int; 4] = [1, 2, 3, 15];

/// A screen of its own and no cursor; and back.
const ENTER: &[u8] = b"\x1b[?1049h\x1b[?25l";
const LEAVE: &[u8] = b"\x1b[?25h\x1b[?1049l";

/// The settings before, and those for every key as it comes. They are set once, before any signal is heard.
static SETTINGS: OnceLock<(Settings, Settings)> = OnceLock::new();
/// Whether the terminal has the second of them.
static IS_RAW: AtomicBool = AtomicBool::new(false);
/// Whether what was drawn is gone, or no longer fits the window.
static IS_STALE: AtomicBool = AtomicBool::new(false);

/// How long a signal that came between a drawing and the wait for keys may go unseen.
const MILLISECONDS: c_int = 250;

/// While this is held the terminal is the reader's.
pub struct Raw(());

impl Raw {
    pub fn begin() -> io::Result<Raw> {
        let mut before = Settings([0; 256]);
        // SAFETY: the settings are longer than the C library's, and a local.
        if unsafe { tcgetattr(INPUT, &mut before) } != 0 {
            return Err(io::Error::last_os_error());
        }
        let mut raw = before;
        // SAFETY: as above.
        unsafe { cfmakeraw(&mut raw) };
        SETTINGS.get_or_init(|| (before, raw));
        for number in ENDING {
            hear(number, end);
        }
        hear(KEYBOARD_STOP, stop_and_go_on);
        hear(RESIZED, resized);
        enter();
        Ok(Raw(()))
    }
}

impl Drop for Raw {
    fn drop(&mut self) {
        leave();
    }
}

/// The window's rows and columns; the usual ones where the terminal doesn't say.
pub fn size() -> Size {
    let mut window = Window::default();
    // SAFETY: this request writes a window's four numbers.
    let told = unsafe { ioctl(OUTPUT, WINDOW, &mut window as *mut Window) } == 0;
    match window {
        Window { rows: 1.., columns: 1.., .. } if told => {
            Size { rows: window.rows.into(), columns: window.columns.into() }
        }
        _ => Size { rows: 24, columns: 80 },
    }
}

/// What a reader waits for.
#[derive(Clone, Copy, PartialEq, Eq, Debug)]
pub enum Event {
    /// There are keys to read, or the input is at its end.
    Keys,
    /// All has to be drawn again.
    Stale,
}

/// Waits for keys, or until what was drawn is stale.
pub fn wait() -> io::Result<Event> {
    loop {
        if IS_STALE.swap(false, Ordering::SeqCst) {
            return Ok(Event::Stale);
        }
        let mut asked = Asked { fd: INPUT, events: READABLE, has: 0 };
        // SAFETY: one question is asked, a local.
        match unsafe { poll(&mut asked, 1, MILLISECONDS) } {
            0 => {}
            1 => return Ok(Event::Keys),
            _ => {
                let error = io::Error::last_os_error();
                if error.kind() != io::ErrorKind::Interrupted {
                    return Err(error);
                }
            }
        }
    }
}

/// Stops as control-Z stops a program, until somebody has it go on.
pub fn stop() {
    // SAFETY: the signal is handled below.
    unsafe { raise(KEYBOARD_STOP) };
}

/// Has a signal call a function.
fn hear(number: c_int, handler: extern "C" fn(c_int)) {
    // SAFETY: the handlers below call only what may be called while a signal is handled: tcsetattr, write, signal and raise.
    unsafe { signal(number, handler as *const () as usize) };
}

/// The terminal becomes the reader's.
fn enter() {
    if let Some((_, raw)) = SETTINGS.get()
        && !IS_RAW.swap(true, Ordering::SeqCst)
    {
        set(raw, ENTER);
    }
}

/// The terminal becomes as it was, if it isn't.
fn leave() {
    if let Some((before, _)) = SETTINGS.get()
        && IS_RAW.swap(false, Ordering::SeqCst)
    {
        set(before, LEAVE);
    }
}

fn set(settings: &Settings, said: &[u8]) {
    // SAFETY: both are valid for their lengths. A terminal that is gone is not told.
    unsafe {
        write(OUTPUT, said.as_ptr().cast(), said.len());
        tcsetattr(INPUT, AFTER_OUTPUT, settings);
    }
}

/// Ends by the signal, as it would have without a handler.
extern "C" fn end(number: c_int) {
    leave();
    // SAFETY: the signal comes again when this returns, and ends the program.
    unsafe {
        signal(number, DEFAULT);
        raise(number);
    }
}

extern "C" fn stop_and_go_on(_: c_int) {
    // SAFETY: the C library's error number is kept for what was interrupted. The second signal can't be handled: the program stands still here
    // until it is continued.
    unsafe {
        let error = *__errno_location();
        leave();
        raise(STOP);
        enter();
        *__errno_location() = error;
    }
    IS_STALE.store(true, Ordering::SeqCst);
}

extern "C" fn resized(_: c_int) {
    IS_STALE.store(true, Ordering::SeqCst);
}
