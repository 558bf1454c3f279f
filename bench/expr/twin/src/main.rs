//! The plain Rust twin of `measure.txt`: a tree-walker over the same rows, with the columns found by their names in
//! each row (`named`) or once (`placed`), and the hard-coded closure (`closure`).
//! Usage: twin named|placed|closure ROUNDS
use std::borrow::Cow;
use std::cmp::Ordering;
use std::hint::black_box;

#[derive(Clone, Copy, PartialEq)]
#[allow(dead_code)]
enum Op {
    Or,
    And,
    Eq,
    Ne,
    Lt,
    Le,
    Gt,
    Ge,
    Add,
    Sub,
    Join,
    Mul,
    Div,
}

#[allow(dead_code)]
enum Expr<C> {
    Number(i64, u8),
    Text(String),
    Column(C),
    Infix(Op, Box<Expr<C>>, Box<Expr<C>>),
    Not(Box<Expr<C>>),
    Neg(Box<Expr<C>>),
    IsNull(Box<Expr<C>>),
    IsNotNull(Box<Expr<C>>),
    Abs(Box<Expr<C>>),
    Length(Box<Expr<C>>),
    Scale(Box<Expr<C>>, u8),
    Coalesce(Box<Expr<C>>, Box<Expr<C>>),
    If(Box<Expr<C>>, Box<Expr<C>>, Box<Expr<C>>),
}

#[derive(Clone, Copy)]
#[allow(dead_code)]
enum Kind {
    Int,
    Dec(u8),
    Text,
}

#[allow(dead_code)]
struct Column {
    name: String,
    kind: Kind,
    nullable: bool,
}

#[allow(dead_code)]
enum Value {
    Null,
    Int(i64),
    Dec(i64),
    Text(String),
}

enum Part<'a> {
    Null,
    Number(i64, u8),
    Text(Cow<'a, str>),
    Truth(Option<bool>),
}

trait Find {
    fn place(&self, columns: &[Column]) -> Option<usize>;
}

impl Find for String {
    fn place(&self, columns: &[Column]) -> Option<usize> {
        columns.iter().position(|column| column.name == *self)
    }
}

impl Find for usize {
    fn place(&self, _: &[Column]) -> Option<usize> {
        Some(*self)
    }
}

const TENS: [i64; 7] = [1, 10, 100, 1_000, 10_000, 100_000, 1_000_000];

fn ten(places: u8) -> i64 {
    TENS[usize::from(places)]
}

fn number<'a>(units: Option<i64>, places: u8) -> Part<'a> {
    match units {
        Some(units) if places <= 6 => Part::Number(units, places),
        _ => Part::Null,
    }
}

fn order(x: (i64, u8), y: (i64, u8)) -> Ordering {
    if x.1 == y.1 {
        x.0.cmp(&y.0)
    } else {
        (i128::from(x.0) * i128::from(ten(y.1))).cmp(&(i128::from(y.0) * i128::from(ten(x.1))))
    }
}

fn compared(left: &Part, right: &Part) -> Option<Ordering> {
    match (left, right) {
        (Part::Number(x, p), Part::Number(y, q)) => Some(order((*x, *p), (*y, *q))),
        (Part::Text(x), Part::Text(y)) => Some(x.as_bytes().cmp(y.as_bytes())),
        _ => None,
    }
}

fn aligned(left: &Part, right: &Part) -> Option<(i64, i64, u8)> {
    match (left, right) {
        (Part::Number(x, p), Part::Number(y, q)) => {
            let places = (*p).max(*q);
            Some((x.checked_mul(ten(places - p))?, y.checked_mul(ten(places - q))?, places))
        }
        _ => None,
    }
}

fn rescaled(x: i64, p: u8, k: u8) -> Option<i64> {
    if p <= k {
        return x.checked_mul(ten(k - p));
    }
    let d = ten(p - k);
    let half = if x < 0 { -(d / 2) } else { d / 2 };
    Some(x.checked_add(half)? / d)
}

impl Part<'_> {
    fn truth(&self) -> Option<bool> {
        match self {
            Part::Truth(truth) => *truth,
            _ => None,
        }
    }

    fn is_null(&self) -> bool {
        matches!(self, Part::Null)
    }
}

fn infix<'a>(op: Op, left: &Part<'a>, right: &Part<'a>) -> Part<'a> {
    let test = |f: fn(Ordering) -> bool| Part::Truth(compared(left, right).map(f));
    match op {
        Op::And => Part::Truth(match (left.truth(), right.truth()) {
            (Some(false), _) | (_, Some(false)) => Some(false),
            (Some(true), Some(true)) => Some(true),
            _ => None,
        }),
        Op::Or => Part::Truth(match (left.truth(), right.truth()) {
            (Some(true), _) | (_, Some(true)) => Some(true),
            (Some(false), Some(false)) => Some(false),
            _ => None,
        }),
        Op::Eq => test(Ordering::is_eq),
        Op::Ne => test(Ordering::is_ne),
        Op::Lt => test(Ordering::is_lt),
        Op::Le => test(Ordering::is_le),
        Op::Gt => test(Ordering::is_gt),
        Op::Ge => test(Ordering::is_ge),
        Op::Add => match aligned(left, right) {
            Some((x, y, places)) => number(x.checked_add(y), places),
            None => Part::Null,
        },
        Op::Sub => match aligned(left, right) {
            Some((x, y, places)) => number(x.checked_sub(y), places),
            None => Part::Null,
        },
        Op::Mul => match (left, right) {
            (Part::Number(x, p), Part::Number(y, q)) => number(x.checked_mul(*y), p + q),
            _ => Part::Null,
        },
        Op::Div => match (left, right) {
            (Part::Number(x, p), Part::Number(y, q)) => {
                number(x.checked_mul(ten(*q)).and_then(|x| x.checked_div(*y)), *p)
            }
            _ => Part::Null,
        },
        Op::Join => match (left, right) {
            (Part::Text(x), Part::Text(y)) if x.len() + y.len() <= 4096 => {
                Part::Text(Cow::Owned([x.as_ref(), y.as_ref()].concat()))
            }
            _ => Part::Null,
        },
    }
}

fn evaluate<'a, C: Find>(expr: &'a Expr<C>, columns: &[Column], row: &'a [Value]) -> Part<'a> {
    match expr {
        Expr::Number(units, places) => Part::Number(*units, *places),
        Expr::Text(text) => Part::Text(Cow::Borrowed(text)),
        Expr::Column(column) => match column.place(columns) {
            Some(place) => match (columns[place].kind, &row[place]) {
                (Kind::Int, Value::Int(n)) => Part::Number(*n, 0),
                (Kind::Dec(places), Value::Dec(n)) => Part::Number(*n, places),
                (Kind::Text, Value::Text(text)) => Part::Text(Cow::Borrowed(text)),
                _ => Part::Null,
            },
            None => Part::Null,
        },
        Expr::Infix(op, a, b) => {
            let left = evaluate(a, columns, row);
            match (op, left.truth()) {
                (Op::And, Some(false)) => return Part::Truth(Some(false)),
                (Op::Or, Some(true)) => return Part::Truth(Some(true)),
                _ => {}
            }
            infix(*op, &left, &evaluate(b, columns, row))
        }
        Expr::Not(a) => Part::Truth(evaluate(a, columns, row).truth().map(|t| !t)),
        Expr::Neg(a) => match evaluate(a, columns, row) {
            Part::Number(x, p) => number(x.checked_neg(), p),
            _ => Part::Null,
        },
        Expr::IsNull(a) => Part::Truth(Some(evaluate(a, columns, row).is_null())),
        Expr::IsNotNull(a) => Part::Truth(Some(!evaluate(a, columns, row).is_null())),
        Expr::Abs(a) => match evaluate(a, columns, row) {
            Part::Number(x, p) => number(x.checked_abs(), p),
            _ => Part::Null,
        },
        Expr::Length(a) => match evaluate(a, columns, row) {
            Part::Text(text) => Part::Number(text.len() as i64, 0),
            _ => Part::Null,
        },
        Expr::Scale(a, k) => match evaluate(a, columns, row) {
            Part::Number(x, p) => number(rescaled(x, p, *k), *k),
            _ => Part::Null,
        },
        Expr::Coalesce(a, b) => match evaluate(a, columns, row) {
            Part::Null => evaluate(b, columns, row),
            part => part,
        },
        Expr::If(c, a, b) => match evaluate(c, columns, row).truth() {
            Some(true) => evaluate(a, columns, row),
            _ => evaluate(b, columns, row),
        },
    }
}

fn example<C>(amt: fn() -> C) -> Expr<C> {
    Expr::Infix(
        Op::And,
        Box::new(Expr::Infix(
            Op::Ge,
            Box::new(Expr::Column(amt())),
            Box::new(Expr::Number(1000, 2)),
        )),
        Box::new(Expr::Not(Box::new(Expr::IsNull(Box::new(Expr::Column(amt())))))),
    )
}

fn kept<C: Find>(expr: &Expr<C>, columns: &[Column], rows: &[Vec<Value>], rounds: u32) -> u64 {
    let mut kept = 0;
    for _ in 0..rounds {
        for row in rows {
            if black_box(evaluate(expr, columns, row).truth()) == Some(true) {
                kept += 1;
            }
        }
    }
    kept
}

fn main() {
    let words: Vec<String> = std::env::args().collect();
    let rounds: u32 = words[2].parse().unwrap();
    let columns = vec![
        Column { name: "id".into(), kind: Kind::Int, nullable: false },
        Column { name: "amt".into(), kind: Kind::Dec(2), nullable: true },
    ];
    let rows: Vec<Vec<Value>> = (0..1000_i64)
        .map(|i| {
            let amount = if i % 10 == 0 { Value::Null } else { Value::Dec(i * 37 % 2000) };
            vec![Value::Int(i), amount]
        })
        .collect();
    let found = match words[1].as_str() {
        "named" => kept(black_box(&example(|| "amt".to_string())), black_box(&columns), &rows, rounds),
        "placed" => kept(black_box(&example(|| 1_usize)), black_box(&columns), &rows, rounds),
        _ => {
            let amount = |row: &[Value]| match row[1] {
                Value::Dec(n) => Some(n),
                _ => None,
            };
            let mut kept = 0;
            for _ in 0..rounds {
                for row in &rows {
                    if black_box(amount(row).is_some_and(|n| n >= 1000)) {
                        kept += 1;
                    }
                }
            }
            kept
        }
    };
    println!("{found}");
}
