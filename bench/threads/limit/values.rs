//! Values, operations, entries of the log, and the table of functions.
use std::sync::Arc;

#[derive(Clone, Debug, PartialEq)]
#[allow(dead_code)] // no shape needs nil, text or vectors, but a value has to have room for them
pub enum Value {
    Nil,
    Int(i64),
    Text(Arc<str>),
    Vector(Arc<Vec<Value>>),
}

impl Value {
    /// The integer that a value is.
    pub fn int(&self) -> i64 {
        match self {
            Value::Int(n) => *n,
            _ => panic!("a value is no integer"),
        }
    }
}

/// The arguments of a function. One needs no block.
#[derive(Clone)]
#[allow(dead_code)] // each function of the shapes has one argument
pub enum Args {
    None,
    One(Value),
    Many(Arc<Vec<Value>>),
}

impl Args {
    pub fn as_slice(&self) -> &[Value] {
        match self {
            Args::None => &[],
            Args::One(value) => std::slice::from_ref(value),
            Args::Many(values) => values,
        }
    }
}

/// What is done to a ref or to an atom. A function is named by its place in the table.
#[allow(dead_code)] // the shapes only alter and commute
pub enum Op {
    Set(Value),
    Alter(u32, Args),
    Commute(u32, Args),
    Ensure,
}

impl Op {
    pub fn is_commute(&self) -> bool {
        matches!(self, Op::Commute(..))
    }
}

/// An operation on a ref, and the value that the ref had after it in the transaction.
pub struct Done {
    pub r: u32,
    pub op: Op,
    pub answer: Value,
}

#[derive(Clone, Copy)]
pub struct Stamp {
    pub worker: u32,
    pub step: u32,
}

/// An entry of the log.
pub enum Entry {
    Trans { stamp: Stamp, read_point: u64, dones: Vec<Done> },
    Atom { a: u32, op: Op, answer: Value },
}

/// A thread's receipt of an entry that it wrote. Log and receipt own the same block.
pub struct Receipt {
    pub point: u64,
    pub entry: Arc<Entry>,
}

/// A function of the table. It may refuse.
type Fun = Box<dyn Fn(&Value, &[Value]) -> Option<Value> + Send + Sync>;

pub struct Table(Vec<Fun>);

pub const PLUS: u32 = 0;
pub const MINUS: u32 = 1;

impl Table {
    /// `+` and `-` with one argument, which refuse what isn't an integer of 64 bits.
    pub fn core() -> Table {
        fn of_two(f: fn(i64, i64) -> Option<i64>) -> Fun {
            Box::new(move |state, args| match (state, args) {
                (Value::Int(a), [Value::Int(b)]) => f(*a, *b).map(Value::Int),
                _ => None,
            })
        }
        Table(vec![of_two(i64::checked_add), of_two(i64::checked_sub)])
    }

    pub fn call(&self, code: u32, state: &Value, args: &Args) -> Option<Value> {
        self.0.get(code as usize)?(state, args.as_slice())
    }
}
