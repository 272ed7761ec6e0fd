//! OTP's own library `ei`, which makes itself known to `epmd` and does the handshake with another node. This is all of the
//! crate's `unsafe` code.
//!
//! `ei` reads and writes by functions that its caller gives it. Those here do so over a `TcpStream`, with one time for the
//! whole handshake. For each of its contexts `ei` has a file of its own: its descriptor is the number that `ei` knows the
//! context by, and nothing is read from it. So after the handshake `ei` is closed, and the stream goes on without it.
//!
//! `ei` says in the handshake what its node takes, and monitors of registered names and messages that name their sender are
//! not in it: so Erlang sends such a node no monitor at all. The crate takes both, as it reads the connection itself. So it
//! adds their flags to the name and to the challenge that `ei` writes.

use crate::connection::locked;
use std::cell::{Cell, RefCell};
use std::ffi::{CStr, CString, c_char, c_int, c_uint, c_void};
use std::fs::File;
use std::io::{self, Read, Write};
use std::net::{Ipv4Addr, Shutdown, SocketAddr, SocketAddrV4, TcpStream};
use std::os::fd::{AsRawFd, FromRawFd};
use std::ptr;
use std::sync::{Mutex, Once};
use std::time::{Duration, Instant};

/// What the handshake says beside `ei`'s own flags: DFLAG_DIST_MONITOR, DFLAG_DIST_MONITOR_NAME and DFLAG_SEND_SENDER.
const FLAGS: u32 = 0x8 | 0x20 | 0x8_0000;

/// EI_SCLBK_FLG_FULL_IMPL: the functions keep to the times that they are given.
const FULL: c_int = 1;
const EINVAL: c_int = 22;
const EIO: c_int = 5;
const ECONNRESET: c_int = 104;
const ETIMEDOUT: c_int = 110;
/// AF_INET, and how many bytes the address of such a socket has.
const AF_INET: u16 = 2;
const ADDRESS: c_int = 16;

/// `ei_socket_callbacks`.
#[repr(C)]
struct Callbacks {
    flags: c_int,
    socket: unsafe extern "C" fn(*mut *mut c_void, *mut c_void) -> c_int,
    close: unsafe extern "C" fn(*mut c_void) -> c_int,
    listen: unsafe extern "C" fn(*mut c_void, *mut c_void, *mut c_int, c_int) -> c_int,
    accept: unsafe extern "C" fn(*mut *mut c_void, *mut c_void, *mut c_int, c_uint) -> c_int,
    connect: unsafe extern "C" fn(*mut c_void, *mut c_void, c_int, c_uint) -> c_int,
    writev: Option<unsafe extern "C" fn(*mut c_void, *const c_void, c_int, *mut isize, c_uint) -> c_int>,
    write: unsafe extern "C" fn(*mut c_void, *const u8, *mut isize, c_uint) -> c_int,
    read: unsafe extern "C" fn(*mut c_void, *mut u8, *mut isize, c_uint) -> c_int,
    handshake_packet_header_size: unsafe extern "C" fn(*mut c_void, *mut c_int) -> c_int,
    connect_handshake_complete: unsafe extern "C" fn(*mut c_void) -> c_int,
    accept_handshake_complete: unsafe extern "C" fn(*mut c_void) -> c_int,
    get_fd: unsafe extern "C" fn(*mut c_void, *mut c_int) -> c_int,
}

/// `ei_cnode`, with room for what a later one may have.
#[repr(C, align(16))]
struct CNode([u8; 16_384]);

/// `ErlConnect`, likewise: the address, and then the name.
#[repr(C, align(8))]
struct Peer([u8; 4_096]);

unsafe extern "C" {
    fn ei_init() -> c_int;
    fn ei_set_tracelevel(level: c_int);
    fn ei_connect_xinit_ussi(
        node: *mut CNode,
        host: *const c_char,
        alive: *const c_char,
        name: *const c_char,
        address: *const u32,
        cookie: *const c_char,
        creation: c_uint,
        callbacks: *const Callbacks,
        size: c_int,
        setup: *mut c_void,
    ) -> c_int;
    fn ei_xlisten(node: *mut CNode, address: *const u32, port: *mut c_int, backlog: c_int) -> c_int;
    fn ei_publish_tmo(node: *mut CNode, port: c_int, limit: c_uint) -> c_int;
    fn ei_accept_tmo(node: *mut CNode, listener: c_int, peer: *mut Peer, limit: c_uint) -> c_int;
    fn ei_connect_tmo(node: *mut CNode, name: *const c_char, limit: c_uint) -> c_int;
    fn ei_close_connection(connection: c_int) -> c_int;
}

/// A context of `ei`.
struct Socket {
    /// What `ei` knows it by.
    key: File,
    stream: Option<TcpStream>,
    until: Instant,
}

/// What the functions of a handshake share with who began it, on the same thread.
struct Handshake {
    /// The connection that was accepted.
    accepted: Option<TcpStream>,
    /// A second handle of the connection, which is left when `ei` has closed its own.
    kept: Option<TcpStream>,
    /// Whether the flags were added.
    announced: bool,
    until: Instant,
}

thread_local! {
    static HANDSHAKE: RefCell<Option<Handshake>> = const { RefCell::new(None) };
    static PORT: Cell<u16> = const { Cell::new(0) };
}

fn in_handshake<T>(work: impl FnOnce(&mut Handshake) -> T) -> Option<T> {
    HANDSHAKE.with_borrow_mut(|handshake| handshake.as_mut().map(work))
}

fn code_of(fault: &io::Error) -> c_int {
    match fault.kind() {
        io::ErrorKind::WouldBlock | io::ErrorKind::TimedOut => ETIMEDOUT,
        _ => fault.raw_os_error().unwrap_or(EIO),
    }
}

/// What `ei` gets: 0, or the number of the fault.
fn answer(done: io::Result<()>) -> c_int {
    done.map_or_else(|fault| code_of(&fault), |()| 0)
}

fn in_time(until: Instant) -> io::Result<Duration> {
    let left = until.saturating_duration_since(Instant::now());
    if left.is_zero() { Err(io::ErrorKind::TimedOut.into()) } else { Ok(left) }
}

fn new_socket(stream: Option<TcpStream>, until: Instant) -> io::Result<*mut c_void> {
    let key = File::open("/dev/null")?;
    Ok(Box::into_raw(Box::new(Socket { key, stream, until })).cast())
}

/// # Safety
///
/// The context is one that `new_socket` made, and that is not closed. (`ei` hands each to one function at a time)
unsafe fn socket_of<'a>(context: *mut c_void) -> &'a mut Socket {
    unsafe { &mut *context.cast::<Socket>() }
}

unsafe extern "C" fn socket(context: *mut *mut c_void, _: *mut c_void) -> c_int {
    let until = in_handshake(|handshake| handshake.until).unwrap_or_else(Instant::now);
    match new_socket(None, until) {
        Ok(made) => {
            unsafe { *context = made };
            0
        }
        Err(fault) => code_of(&fault),
    }
}

unsafe extern "C" fn close_socket(context: *mut c_void) -> c_int {
    drop(unsafe { Box::from_raw(context.cast::<Socket>()) });
    0
}

/// Says where the program listens, which it does itself.
unsafe extern "C" fn listen(_: *mut c_void, address: *mut c_void, _: *mut c_int, _: c_int) -> c_int {
    let port = PORT.get().to_be_bytes();
    unsafe { ptr::copy_nonoverlapping(port.as_ptr(), address.cast::<u8>().add(2), 2) };
    0
}

unsafe extern "C" fn accept(context: *mut *mut c_void, address: *mut c_void, size: *mut c_int, _: c_uint) -> c_int {
    let accepted = in_handshake(|handshake| Some((handshake.accepted.take()?, handshake.until))).flatten();
    let Some((stream, until)) = accepted else { return EINVAL };
    let peer = match stream.peer_addr() {
        Ok(SocketAddr::V4(peer)) => peer,
        Ok(SocketAddr::V6(_)) => return EINVAL,
        Err(fault) => return code_of(&fault),
    };
    match new_socket(Some(stream), until) {
        Ok(made) => {
            let bytes = address_bytes(peer);
            unsafe {
                if *size >= ADDRESS {
                    ptr::copy_nonoverlapping(bytes.as_ptr(), address.cast::<u8>(), bytes.len());
                    *size = ADDRESS;
                }
                *context = made;
            }
            0
        }
        Err(fault) => code_of(&fault),
    }
}

/// `sockaddr_in`.
fn address_bytes(address: SocketAddrV4) -> [u8; 16] {
    let mut bytes = [0; 16];
    bytes[..2].copy_from_slice(&AF_INET.to_ne_bytes());
    bytes[2..4].copy_from_slice(&address.port().to_be_bytes());
    bytes[4..8].copy_from_slice(&address.ip().octets());
    bytes
}

unsafe extern "C" fn connect(context: *mut c_void, address: *mut c_void, size: c_int, _: c_uint) -> c_int {
    if size < ADDRESS {
        return EINVAL;
    }
    let (mut bytes, socket) = ([0; 16], unsafe { socket_of(context) });
    unsafe { ptr::copy_nonoverlapping(address.cast::<u8>(), bytes.as_mut_ptr(), bytes.len()) };
    let port = u16::from_be_bytes([bytes[2], bytes[3]]);
    let to = SocketAddrV4::new(Ipv4Addr::new(bytes[4], bytes[5], bytes[6], bytes[7]), port);
    answer(connect_to(socket, to))
}

fn connect_to(socket: &mut Socket, to: SocketAddrV4) -> io::Result<()> {
    let stream = TcpStream::connect_timeout(&to.into(), in_time(socket.until)?)?;
    let kept = stream.try_clone()?;
    in_handshake(|handshake| handshake.kept = Some(kept));
    socket.stream = Some(stream);
    Ok(())
}

unsafe extern "C" fn write(context: *mut c_void, bytes: *const u8, size: *mut isize, _: c_uint) -> c_int {
    let socket = unsafe { socket_of(context) };
    let bytes = unsafe { std::slice::from_raw_parts(bytes, usize::try_from(*size).unwrap_or(0)) };
    let mut packet = bytes.to_vec();
    if announce(&mut packet) {
        in_handshake(|handshake| handshake.announced = true);
    }
    answer(write_all(socket, &packet))
}

fn write_all(socket: &mut Socket, packet: &[u8]) -> io::Result<()> {
    let left = in_time(socket.until)?;
    let stream = socket.stream.as_mut().ok_or(io::ErrorKind::NotConnected)?;
    stream.set_write_timeout(Some(left))?;
    stream.write_all(packet)
}

/// Adds the flags to a packet that has this node's own. It returns whether it is one.
fn announce(packet: &mut [u8]) -> bool {
    // (a packet is two bytes of its length, the letter `N`, and eight bytes of flags)
    let &[high, low, b'N', _, _, _, _, ..] = &*packet else { return false };
    if usize::from(u16::from_be_bytes([high, low])) + 2 != packet.len() || packet.len() < 11 {
        return false;
    }
    let flags = u32::from_be_bytes([packet[7], packet[8], packet[9], packet[10]]) | FLAGS;
    packet[7..11].copy_from_slice(&flags.to_be_bytes());
    true
}

unsafe extern "C" fn read(context: *mut c_void, bytes: *mut u8, size: *mut isize, _: c_uint) -> c_int {
    let socket = unsafe { socket_of(context) };
    let room = unsafe { std::slice::from_raw_parts_mut(bytes, usize::try_from(*size).unwrap_or(0)) };
    match read_some(socket, room) {
        // (`ei` takes it for the end of a connection only if it is told of a fault)
        Ok(0) => ECONNRESET,
        Ok(count) => {
            unsafe { *size = count as isize };
            0
        }
        Err(fault) => code_of(&fault),
    }
}

fn read_some(socket: &mut Socket, room: &mut [u8]) -> io::Result<usize> {
    let left = in_time(socket.until)?;
    let stream = socket.stream.as_mut().ok_or(io::ErrorKind::NotConnected)?;
    stream.set_read_timeout(Some(left))?;
    stream.read(room)
}

unsafe extern "C" fn header_size(_: *mut c_void, size: *mut c_int) -> c_int {
    unsafe { *size = 2 };
    0
}

unsafe extern "C" fn complete(_: *mut c_void) -> c_int {
    0
}

unsafe extern "C" fn get_fd(context: *mut c_void, descriptor: *mut c_int) -> c_int {
    unsafe { *descriptor = socket_of(context).key.as_raw_fd() };
    0
}

static CALLBACKS: Callbacks = Callbacks {
    flags: FULL,
    socket,
    close: close_socket,
    listen,
    accept,
    connect,
    writev: None,
    write,
    read,
    handshake_packet_header_size: header_size,
    connect_handshake_complete: complete,
    accept_handshake_complete: complete,
    get_fd,
};

/// Why `ei` did not do what it was to.
#[derive(Clone, Copy, Debug, PartialEq, Eq)]
pub(crate) enum Fault {
    /// The name, the cookie or the address is none that `ei` takes.
    BadSetting,
    /// `epmd` is not there, or has a node of this name.
    Epmd,
    /// The other node was not reached, or closed the connection: it may not know the cookie.
    Refused,
    /// The handshake was none of those that are known: the flags could not be added.
    OtherHandshake,
}

/// A node that `ei` knows.
pub(crate) struct Node {
    node: Box<CNode>,
    listener: c_int,
    /// The connection to `epmd`, which forgets the node as it is closed.
    epmd: Mutex<Option<TcpStream>>,
}

// SAFETY: `ei` only reads a node once it is set up, and its own tables have locks.
unsafe impl Send for Node {}
unsafe impl Sync for Node {}

/// Where a node is.
pub(crate) struct Place<'a> {
    pub(crate) alive: &'a str,
    pub(crate) host: &'a str,
    pub(crate) address: Ipv4Addr,
    /// Where the program listens.
    pub(crate) port: u16,
    pub(crate) creation: u32,
}

impl Place<'_> {
    /// The address as `ei` takes it, in network order.
    fn network_address(&self) -> u32 {
        u32::from_ne_bytes(self.address.octets())
    }
}

/// Has `ei` set a node up: its name, its address, its cookie, and the functions that it reads and writes by.
fn set_up(place: &Place<'_>, cookie: &str) -> Result<Box<CNode>, Fault> {
    let text = |text: &str| CString::new(text).map_err(|_| Fault::BadSetting);
    let name = text(&format!("{}@{}", place.alive, place.host))?;
    let (alive, host, cookie) = (text(place.alive)?, text(place.host)?, text(cookie)?);
    let address = place.network_address();
    let mut node = Box::new(CNode([0; 16_384]));
    // SAFETY: all texts and the address live as long as the call, which copies them; the functions live for ever.
    let made = unsafe {
        ei_connect_xinit_ussi(
            &mut *node,
            host.as_ptr(),
            alive.as_ptr(),
            name.as_ptr(),
            &address,
            cookie.as_ptr(),
            place.creation,
            &CALLBACKS,
            std::mem::size_of::<Callbacks>() as c_int,
            ptr::null_mut(),
        )
    };
    if made < 0 { Err(Fault::BadSetting) } else { Ok(node) }
}

impl Node {
    pub(crate) fn new(place: &Place<'_>, cookie: &str) -> Result<Node, Fault> {
        static BEGUN: Once = Once::new();
        // (a trace would have what both sides prove that they know the cookie by)
        BEGUN.call_once(|| unsafe {
            ei_init();
            ei_set_tracelevel(0);
        });
        let mut node = set_up(place, cookie)?;
        PORT.set(place.port);
        let (address, mut port) = (place.network_address(), c_int::from(place.port));
        // SAFETY: the node is set up.
        let listener = unsafe { ei_xlisten(&mut *node, &address, &mut port, 16) };
        if listener < 0 { Err(Fault::BadSetting) } else { Ok(Node { node, listener, epmd: Mutex::default() }) }
    }

    /// Makes the node known to `epmd`.
    ///
    /// `ei`'s own descriptor would go to each program that this one starts, and `epmd` would know the node as long as that runs.
    pub(crate) fn publish(&mut self, port: u16, limit: Duration) -> Result<(), Fault> {
        // SAFETY: the node is set up.
        let epmd = unsafe { ei_publish_tmo(&mut *self.node, c_int::from(port), millis(limit)) };
        if epmd < 0 {
            return Err(Fault::Epmd);
        }
        // SAFETY: `ei` has made it, and leaves it to its caller.
        let inherited = unsafe { TcpStream::from_raw_fd(epmd) };
        let kept = inherited.try_clone().map_err(|_| Fault::Epmd)?;
        *locked(&self.epmd) = Some(kept);
        Ok(())
    }

    /// Has `epmd` forget the node.
    pub(crate) fn unpublish(&self) {
        if let Some(epmd) = locked(&self.epmd).take() {
            let _ = epmd.shutdown(Shutdown::Both);
        }
    }

    fn pointer(&self) -> *mut CNode {
        ptr::from_ref(&*self.node).cast_mut()
    }

    /// Does the handshake over a connection that was accepted. It returns the connection and the name of the other node.
    pub(crate) fn accept(&self, stream: TcpStream, limit: Duration) -> Result<(TcpStream, String), Fault> {
        let kept = stream.try_clone().map_err(|_| Fault::Refused)?;
        let mut peer = Box::new(Peer([0; 4_096]));
        // SAFETY: the node is set up, and there is room for more than the peer's name.
        let shake = || unsafe { ei_accept_tmo(self.pointer(), self.listener, &mut *peer, millis(limit)) };
        let stream = shaken(Some(stream), Some(kept), limit, shake)?;
        let name = CStr::from_bytes_until_nul(&peer.0[4..]).map_err(|_| Fault::Refused)?;
        Ok((stream, name.to_str().map_err(|_| Fault::Refused)?.to_owned()))
    }

    /// Connects to another node, which `epmd` of its host knows.
    pub(crate) fn connect(&self, name: &str, limit: Duration) -> Result<TcpStream, Fault> {
        let name = CString::new(name).map_err(|_| Fault::BadSetting)?;
        // SAFETY: the node is set up, and the name lives as long as the call.
        shaken(None, None, limit, || unsafe { ei_connect_tmo(self.pointer(), name.as_ptr(), millis(limit)) })
    }
}

impl Drop for Node {
    fn drop(&mut self) {
        self.unpublish();
        // SAFETY: it is the node's own, and closed once.
        unsafe { ei_close_connection(self.listener) };
    }
}

fn millis(time: Duration) -> c_uint {
    c_uint::try_from(time.as_millis()).unwrap_or(c_uint::MAX - 1).max(1)
}

/// Does a handshake, after which `ei` knows nothing of the connection any more.
fn shaken(
    accepted: Option<TcpStream>,
    kept: Option<TcpStream>,
    limit: Duration,
    shake: impl FnOnce() -> c_int,
) -> Result<TcpStream, Fault> {
    let until = Instant::now() + limit;
    HANDSHAKE.set(Some(Handshake { accepted, kept, announced: false, until }));
    let connection = shake();
    let handshake = HANDSHAKE.take().ok_or(Fault::Refused)?;
    if connection < 0 {
        return Err(Fault::Refused);
    }
    // SAFETY: it is the connection that `ei` has just made.
    unsafe { ei_close_connection(connection) };
    if !handshake.announced {
        return Err(Fault::OtherHandshake);
    }
    let stream = handshake.kept.ok_or(Fault::Refused)?;
    stream.set_write_timeout(None).and_then(|()| stream.set_nodelay(true)).map_err(|_| Fault::Refused)?;
    Ok(stream)
}
