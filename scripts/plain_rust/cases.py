"""Cases for scripts/test-plain-rust: sources that are erased, and sources that are refused."""

# what a case shows, a source of the crate `runs`, and the erased source
ERASED = [
    ("clauses and the comments among them", """
/// Adds one.
pub fn add(n: u32) -> u32
    requires { n < 2 ^ 32 - 1 }

    // The sum.
    ensures sum { result ≡ n + 1 }
{
    n + 1
}
""", """
/// Adds one.
pub fn add(n: u32) -> u32 {
    n + 1
}
"""),
    ("clauses after bounds", """
fn ask<F>(f: &F) -> u8
where
    F: Fn(u8) -> u8,
    requires { F.IsAlwaysCallable f.now }
{
    f(1)
}
""", """
fn ask<F>(f: &F) -> u8
where
    F: Fn(u8) -> u8,
{
    f(1)
}
"""),
    ("members of traits", """
trait Source {
    /// What it may answer.
    ghost answers: { Self → List ℕ };

    /// A file.
    fn file(&self) -> &[u8]
        ensures { answers self.now result.now };
}

impl Source for &[u8] {
    ghost answers = { λ s. s.now };

    fn file(&self) -> &[u8] {
        self
    }
}
""", """
trait Source {
    /// A file.
    fn file(&self) -> &[u8];
}

impl Source for &[u8] {
    fn file(&self) -> &[u8] {
        self
    }
}
"""),
    ("ghost imports, fields, models and their comments", """
//! Counts.

ghost use Rattle.std.specs.Prelude.{ℕ, ◌+◌};

use std::marker::{Model, PhantomData};

/// A count.
#[derive(Clone, Drop)]
pub struct Count {
    of: PhantomData<u8>,
    /// Only proofs see it.
    pub ghost count: { ℕ },
}

// A clause sees the count.
impl Model for Count {
    ghost Value = { ℕ };

    ghost view = { λ c. c.count };
}

/// None.
fn none() {}
""", """
//! Counts.

use core::marker::PhantomData;

/// A count.
#[derive(Clone)]
pub struct Count {
    of: PhantomData<u8>,
}

/// None.
fn none() {}
"""),
    ("attributes of the prover, and bounds", """
//! Pairs.
#![tactic(auto)]

use std::marker::Model;

/// A pair.
#[derive(Drop)]
pub struct Pair<T: Drop + Copy>(T, T);

// A call drops it.
impl<T: Drop + Copy> Drop for Pair<T> {
    fn drop(self) {
        let Pair { 0: _, 1: _ } = self;
    }
}

#[cycle(pairs)]
#[inline(always)]
fn both<T: Copy + Drop, U: Drop>(t: T, u: U) -> (T, U) {
    (t, u)
}
""", """
//! Pairs.

/// A pair.
pub struct Pair<T: Copy>(T, T);

#[inline(always)]
fn both<T: Copy, U>(t: T, u: U) -> (T, U) {
    (t, u)
}
"""),
    ("formatters", """
use std::fmt::{self, Display, Formatter, Write};

impl Display for Cause {
    fn fmt<W: Write>(&self, f: &mut Formatter<W>) -> fmt::Result {
        write!(f, "≡ {}", self.0)
    }
}
""", """
use core::fmt::{self, Display, Formatter};

impl Display for Cause {
    fn fmt(&self, f: &mut Formatter<'_>) -> fmt::Result {
        write!(f, "≡ {}", self.0)
    }
}
"""),
    ("paths, what takes memory, and methods by hand", """
use crate::held::Held;
use std::alloc::{AllocError, Global};
use values::names::Cid;

fn cids(alloc: Global, held: &mut &[Cid]) -> Result<Vec<Cid>, AllocError> {
    held.split_off_first();
    held.split_off(..2);
    held.iter().copied().collect(alloc)
}
""", """
use crate::fallible::alloc::{AllocError, Global};
use crate::fallible::{CollectIn, TakeFront, Vec};
use crate::reader::runs::held::Held;
use crate::reader::values::names::Cid;

fn cids(alloc: Global, held: &mut &[Cid]) -> Result<Vec<Cid>, AllocError> {
    held.take_one();
    held.take_front(..2);
    held.iter().copied().collect_in(alloc)
}
"""),
    ("a list of copies", """
fn blanks(alloc: Global, count: usize) -> Result<Vec<u8>, AllocError> {
    vec![in alloc; b' '; (2 * count) as usize]
}
""", """
use crate::fallible::Vec;

fn blanks(alloc: Global, count: usize) -> Result<Vec<u8>, AllocError> {
    Vec::from_elem(alloc, b' ', (2 * count) as usize)
}
"""),
    ("a call for C, and clauses that lend", """
use std::alloc::Global;

/// The text.
#[tactic(auto, using(crate::proofs::Texts::one))]
#[unsafe(no_mangle)]
pub extern "C" fn hayro_cmap_text<'a>(map: &'a mut Handle, alloc: Global, room: &mut [u8]) -> u32
    ensures* rests { sem 𝓛 map.entry }
    ensures same { map.new ≡ map.old }
{
    number(cause.to_string(alloc), str::from_utf8(text))
}
""", """
use crate::fallible::Printed;
use crate::fallible::alloc::Global;

/// The text.
pub fn hayro_cmap_text<'a>(map: &'a mut Handle, alloc: Global, room: &mut [u8]) -> u32 {
    number(cause.to_string_in(alloc), str::from_utf8(text))
}
"""),
    ("a struct for C", """
/// A file.
#[repr(C)]
#[derive(Clone, Copy)]
pub struct BaseFile<'a> {
    pub(crate) name: &'a [u8],
    pub(crate) len: usize,
    /// The map.
    pub ghost map: { Option Map } by { coded_option map.coded },
}

impl<'a> BaseFile<'a> {
    fn name(&self) -> &'a [u8] {
        first(self.name, self.len, self.name())
    }
}
""", """
use crate::fallible::Span;

/// A file.
#[repr(C)]
#[derive(Clone, Copy)]
pub struct BaseFile<'a> {
    pub(crate) name: Span<'a>,
    pub(crate) len: usize,
}

impl<'a> BaseFile<'a> {
    fn name(&self) -> &'a [u8] {
        first(self.name.bytes(), self.len, self.name())
    }
}
"""),
    ("no word of a text or a comment", """
// requires { nothing } of `Drop`, ghost
const TEXT: &str = "ghost use std::io; ensures { ≡ }";
const BYTE: u8 = b'"';
""", """
// requires { nothing } of `Drop`, ghost
const TEXT: &str = "ghost use std::io; ensures { ≡ }";
const BYTE: u8 = b'"';
"""),
]

# what a case shows, a source of a program, and the erased source
ERASED_PROGRAM = [
    ("the system", """
use std::env::{self, VarError};
use std::io::{self, IsTerminal, Write};
use std::process::ExitCode;

fn main(rt: HostRuntime) -> ExitCode {
    ExitCode::from(run(&rt))
}
""", """
use crate::host::HostRuntime;
use crate::host::env::{self, VarError};
use std::io::{self, IsTerminal, Write};
use std::process::ExitCode;

fn main() -> ExitCode {
    let rt = HostRuntime::of_process();
    ExitCode::from(run(&rt))
}
"""),
    ("texts that are printed", """
fn say(rt: &HostRuntime, done: usize) -> Result<(), Failure> {
    let text = format!(in rt.alloc(); "{done}, {}", f(1))?;
    eprintln!(rt; "cmap: {text}")?;
    Ok(eprint!(rt;
        "{}",
        done
    )?)
}
""", """
use crate::fallible::String;
use crate::host::HostRuntime;

fn say(rt: &HostRuntime, done: usize) -> Result<(), Failure> {
    let text = String::from_fmt(rt.alloc(), format_args!("{done}, {}", f(1)))?;
    rt.eprintln_fmt(format_args!("cmap: {text}"))?;
    Ok(rt.eprint_fmt(format_args!(
        "{}",
        done
    ))?)
}
"""),
]

# what a case shows, a source, the line of the fault, and the message
REFUSED = [
    ("the system in a library", "fn f(rt: &HostRuntime) {}\n", 1, "an unknown construct: HostRuntime"),
    ("the files of the system in a library", "use std::fs;\n", 1, "an unknown path: std::fs"),
    ("a union", "\nunion Both {\n    a: u8,\n}\n", 2, "an unknown construct: union"),
    ("a text that is printed without the system", 'fn f() {\n    eprintln!("a");\n}\n', 2, "an unknown macro: eprintln!"),
    ("a destructor", "struct S;\n\nimpl Drop for S {\n    fn drop(self) {\n        f(&self);\n"
     "        let S {} = self;\n    }\n}\n", 3, "a `drop` that does more than to name the fields"),
    ("a `Drop` elsewhere", "use std::Drop;\n", 1, "a `Drop` that is no bound"),
    ("unsafe code", "fn f() {\n    unsafe { g() }\n}\n", 2, "an unknown construct: unsafe"),
    ("an unknown attribute", "\n#[repr(u8)]\nenum E {}\n", 2, "an unknown attribute: repr"),
    ("a slice in a struct for C", "#[repr(C)]\nstruct S<'a> {\n    len: [u8; 2],\n    codes: &'a [u32],\n}\n", 4,
     "a slice in a struct for C that isn't one of bytes"),
    ("another call for C", "#[unsafe(no_mangle)]\nextern \"C\" fn f() {}\n", 1, "an unknown attribute: unsafe"),
    ("an unknown macro", "fn f() {\n    let v = vec![in alloc; 1]?;\n}\n", 2, "an unknown macro: vec!"),
    ("an unknown part of std", "use std::thread;\n", 1, "an unknown path: std::thread"),
    ("an unknown collection", "use std::collections::HashMap;\n", 1, "an unknown path: std::collections::HashMap"),
    ("an unknown ghost", "impl S {\n    ghost fn f() {}\n}\n", 2, "an unknown ghost"),
    ("a member of a model that is code", "impl Model for S {\n    fn f() {}\n}\n", 2,
     "a member of a model that is no ghost"),
    ("a clause without braces", "fn f()\n    requires a b { c }\n{}\n", 2, "a clause without braces"),
    ("clauses before no body", "fn f()\n    ensures { a }\n    where\n{}\n", 3,
     "the clauses of a function end before its body"),
    ("another formatter", "fn f<W: Write, V>(f: &mut Formatter<W>) {}\n", 1,
     "a formatter that isn't the one of a function `fmt`"),
    ("a clause elsewhere", "fn f() {\n    for x in y\n        invariant { a }\n    {}\n}\n", 3,
     "an unknown construct: invariant"),
    ("a sign of a specification", "fn f() {\n    let x = a ≡ b;\n}\n", 2, "an unknown construct: ≡"),
    ("a trait object", "fn f(x: &dyn Read) {}\n", 1, "an unknown construct: dyn"),
    ("a bracket that isn't closed", "#[inline(always]\nfn f() {}\n", 1, "a bracket isn't closed"),
]

# what a case shows, a text, and the text with the mark `inline` on `f`
INLINES = [
    ("a function without attributes", "fn g() {}\n\nfn f() {}\n", "fn g() {}\n\n#[inline(always)]\nfn f() {}\n"),
    ("a method that says otherwise", "    #[cold]\n    #[inline(never)]\n    pub(super) fn f() {}\n",
     "    #[inline(always)]\n    pub(super) fn f() {}\n"),
    ("no such function", "fn of() {}\n", "0 functions have the name f"),
    ("two of them", "fn f() {}\n\npub fn f() {}\n", "2 functions have the name f"),
]

# what a case shows, a source, and the function that C calls
CALLS = [
    ("numbers and a handle", """
#[unsafe(no_mangle)]
pub extern "C" fn hayro_cmap_has(map: &mut Handle, code: u32, cid: &mut u32) -> bool
    ensures { Cid map.old code cid.new }
{
    map.cid(code, cid)
}
""", """
#[unsafe(no_mangle)]
pub unsafe extern "C" fn hayro_cmap_has(
    map: *mut handles::Handle,
    code: u32,
    cid: *mut u32,
) -> bool {
    let (Some(map), Some(cid),) =
        (unsafe { (one_mut(map), one_mut(cid),) })
    else {
        return false;
    };
    calls::hayro_cmap_has(map, code, cid)
}
"""),
    ("a lookup, which is made in place where it is usual", """
#[unsafe(no_mangle)]
pub extern "C" fn hayro_cmap_cid(map: &mut Handle, alloc: Global, code: u32, byte_len: u8, cid: &mut u32) -> bool {
    map.cid(code, byte_len, cid)
}
""", """
#[unsafe(no_mangle)]
pub unsafe extern "C" fn hayro_cmap_cid(
    map: *mut handles::Handle,
    code: u32,
    byte_len: u8,
    cid: *mut u32,
) -> bool {
    let (Some(map), Some(cid),) =
        (unsafe { (one_mut(map), one_mut(cid),) })
    else {
        return false;
    };
    if !lookup::is_usual(map, byte_len) {
        return lookup::hayro_cmap_cid(map, code, byte_len, cid);
    }
    calls::hayro_cmap_cid(map, Global, code, byte_len, cid)
}
"""),
    ("files, a buffer and an allocator", """
#[unsafe(no_mangle)]
pub extern "C" fn hayro_cmap_read<'a>(alloc: Global, files: &[File<'a>], room: &mut [u8]) -> u32 {
    read(alloc, files, room)
}
""", """
#[unsafe(no_mangle)]
pub unsafe extern "C" fn hayro_cmap_read(
    files: *const files::File<'_>,
    files_len: usize,
    room: *mut u8,
    room_len: usize,
) -> u32 {
    let (Some(files), Some(room),) =
        (unsafe { (items(files, files_len), items_mut(room, room_len),) })
    else {
        return ABSENT;
    };
    calls::hayro_cmap_read(Global, files, room)
}
"""),
]
# what a case shows, a source, and the message
REFUSED_CALLS = [
    ("a struct that C doesn't know", """
#[unsafe(no_mangle)]
pub extern "C" fn hayro_cmap_cid(map: &Map) -> u32 {}
""", "an unknown type of a call for C: Map"),
    ("a struct that is no pointer", """
#[unsafe(no_mangle)]
pub extern "C" fn hayro_cmap_free(map: Handle) {}
""", "an unknown type of a call for C: Handle"),
    ("another result", """
#[unsafe(no_mangle)]
pub extern "C" fn hayro_cmap_cid(code: u32) -> u64 {}
""", "file:3: an unknown result of a call for C: u64"),
]
