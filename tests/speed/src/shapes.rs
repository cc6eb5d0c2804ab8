//! Sheets of one shape and of any size, and their host lists. Every one of them is accepted.

use generator::Rng;
use sheets::build::{export, func, function, import, listed, ret_void, structure, user};
use sheets::{
    build, encode_hosts, encode_sheet, op, renumber, Constant, Edition, ExportKind, Function,
    Global, Handler, HostEntry, Import, Param, ShapeEntry, Sheet, TypeEntry, ValueType, DYN, STR,
};

/// What a shape is called, a size that fills most of a sheet, and how it is made.
pub struct Shape {
    pub name: &'static str,
    pub most: usize,
    pub make: fn(usize) -> (Sheet, Vec<HostEntry>),
}

pub const SHAPES: &[Shape] = &[
    Shape {
        name: "ordinary",
        most: 3_600,
        make: ordinary,
    },
    Shape {
        name: "coroutines",
        most: 500_000,
        make: coroutines,
    },
    Shape {
        name: "equal strings",
        most: 250_000,
        make: equal_strings,
    },
    Shape {
        name: "strings",
        most: 120_000,
        make: strings,
    },
    Shape {
        name: "long func types",
        most: 500,
        make: long_funcs,
    },
    Shape {
        name: "chains",
        most: 100_000,
        make: chains,
    },
    Shape {
        name: "scattered chains",
        most: 100_000,
        make: scattered_chains,
    },
    Shape {
        name: "longest chains",
        most: 104_036,
        make: longest_chains,
    },
    Shape {
        name: "handlers",
        most: 60_000,
        make: handlers,
    },
    Shape {
        name: "imports",
        most: 84_000,
        make: imports,
    },
    Shape {
        name: "hosts alone",
        most: 100_000,
        make: hosts_alone,
    },
    Shape {
        name: "parameters",
        most: 52_000,
        make: parameters,
    },
    Shape {
        name: "fields",
        most: 65_000,
        make: fields,
    },
    Shape {
        name: "moves",
        most: 250_000,
        make: moves,
    },
    Shape {
        name: "functions",
        most: 30_000,
        make: functions,
    },
    Shape {
        name: "constants",
        most: 120_000,
        make: constants,
    },
    Shape {
        name: "globals",
        most: 250_000,
        make: globals,
    },
    Shape {
        name: "exports",
        most: 100_000,
        make: exports,
    },
    Shape {
        name: "arguments",
        most: 120_000,
        make: arguments,
    },
];

/// Accepted in edition 2 alone.
pub const LEFT_OUT: Shape = Shape {
    name: "left-out",
    most: 100_000,
    make: left_out,
};

fn texts(n: usize, stem: &str) -> Vec<Vec<u8>> {
    (0..n).map(|k| format!("{stem}{k}").into_bytes()).collect()
}

/// n families of a tariff: for each, three structs, an array and a map of them, a function of some
/// twenty instructions with a handler, a constant, a global and an import.
fn ordinary(n: usize) -> (Sheet, Vec<HostEntry>) {
    let mut sheet = Sheet {
        strings: texts(4 * n + 1, "tariff.item."),
        ..Sheet::default()
    };
    sheet.types.push(func(&[DYN, DYN], &[DYN]));
    let mut hosts = Vec::new();
    for k in 0..n as u32 {
        let root = sheet.types.len() as u32;
        let parent = (k % 16 != 0).then(|| root - 5);
        let s = 4 * k;
        for (own, p) in [(0, parent), (1, Some(root)), (2, Some(root))] {
            // a child begins with its parent's fields
            let mut fields = vec![(1, DYN), (2, STR)];
            if own > 0 {
                fields.push((s + 3, ValueType::reference(root)));
            }
            sheet.types.push(TypeEntry::Struct {
                name: s,
                parent: p,
                fields,
                methods: vec![(s + 1, k), (s + 2, k)],
            });
        }
        sheet
            .types
            .push(TypeEntry::Array(ValueType::reference(root + 1)));
        sheet
            .types
            .push(TypeEntry::Map(STR, ValueType::reference(root + 2)));
        sheet.constants.push(Constant::Str(s));
        sheet.globals.push(Global {
            ty: STR,
            init: Some(k),
        });
        sheet.imports.push(import(s, s + 1, 0));
        let text = |i: u32| String::from_utf8(sheet.strings[i as usize].clone()).expect("a text");
        hosts.push(user(&text(s), &text(s + 1)));
        let mut code: Vec<u64> = (0..16u16)
            .map(|i| build::abc(op::MOVE, 0, i % 6, (i + 1) % 6, 0))
            .collect();
        code.push(build::aw(op::RET, 0, 2, 0));
        sheet.functions.push(Function {
            params: Some(vec![
                Param {
                    flags: 0,
                    name: Some(s),
                },
                Param {
                    flags: 0,
                    name: Some(s + 1),
                },
            ]),
            names: vec![s, s + 2],
            handlers: vec![Handler {
                start: 0,
                end: 8,
                target: 16,
                catch: 1,
            }],
            ..function(&[DYN; 6], &code)
        });
    }
    (sheet, hosts)
}

fn coroutines(n: usize) -> (Sheet, Vec<HostEntry>) {
    let types = vec![TypeEntry::Coroutine; n];
    (
        Sheet {
            types,
            ..Sheet::default()
        },
        Vec::new(),
    )
}

fn equal_strings(n: usize) -> (Sheet, Vec<HostEntry>) {
    let strings = vec![b"same".to_vec(); n];
    (
        Sheet {
            strings,
            ..Sheet::default()
        },
        Vec::new(),
    )
}

fn strings(n: usize) -> (Sheet, Vec<HostEntry>) {
    // spread, so that neighbours are no neighbours in the order
    let strings = (0..n as u32)
        .map(|k| format!("{:08x}", k.wrapping_mul(2_654_435_761)).into_bytes())
        .collect();
    (
        Sheet {
            strings,
            ..Sheet::default()
        },
        Vec::new(),
    )
}

/// n equal func types of a thousand parameters.
fn long_funcs(n: usize) -> (Sheet, Vec<HostEntry>) {
    let types = vec![func(&vec![DYN; 1_000], &[]); n];
    (
        Sheet {
            types,
            ..Sheet::default()
        },
        Vec::new(),
    )
}

/// Structs without members, by their parents. The name is empty, so that 104,036 of them fill a sheet.
fn structs(parents: impl Iterator<Item = Option<u32>>) -> (Sheet, Vec<HostEntry>) {
    let types = parents.map(|p| structure(p, &[])).collect();
    (
        Sheet {
            strings: vec![Vec::new()],
            types,
            ..Sheet::default()
        },
        Vec::new(),
    )
}

/// n structs on chains of 256.
fn chains(n: usize) -> (Sheet, Vec<HostEntry>) {
    structs((0..n as u32).map(|k| (k % 256 != 0).then(|| k - 1)))
}

/// The same, numbered in no order: what is next on a chain is far away.
fn scattered_chains(n: usize) -> (Sheet, Vec<HostEntry>) {
    let (sheet, hosts) = chains(n);
    (renumber(&sheet, &Rng::new(1, 0).permutation(n)), hosts)
}

/// 255 structs on a chain, and all others below its end.
fn longest_chains(n: usize) -> (Sheet, Vec<HostEntry>) {
    structs((0..n as u32).map(|k| k.checked_sub(1).map(|last| last.min(254))))
}

/// n handlers, each over half of n instructions.
fn handlers(n: usize) -> (Sheet, Vec<HostEntry>) {
    let code = vec![ret_void(); n];
    let half = n as u32 / 2;
    let handlers = (0..n as u32)
        .map(|k| Handler {
            start: k % half,
            end: k % half + half,
            target: 0,
            catch: 0,
        })
        .collect();
    let f = Function {
        handlers,
        ..function(&[DYN], &code)
    };
    let types = vec![func(&[], &[])];
    (
        Sheet {
            types,
            functions: vec![f],
            ..Sheet::default()
        },
        Vec::new(),
    )
}

/// n names of four letters, in no order.
fn names(n: usize) -> impl Iterator<Item = String> {
    let letter = |x: u32| char::from(b'0' + (x % 64) as u8);
    (0..n as u32).map(move |k| {
        let x = k.wrapping_mul(10_368_889) % (1 << 24);
        [x, x >> 6, x >> 12, x >> 18]
            .into_iter()
            .map(letter)
            .collect()
    })
}

/// n functions of one module.
fn host_list(n: usize) -> Vec<HostEntry> {
    names(n).map(|name| user("", &name)).collect()
}

/// n imports over a host list of n functions, each resolved.
fn imports(n: usize) -> (Sheet, Vec<HostEntry>) {
    let hosts = host_list(n);
    let mut strings = vec![Vec::new()];
    strings.extend(hosts.iter().map(|h| h.name.to_vec()));
    let imports = (0..n as u32)
        .map(|k| import(0, 1 + (n as u32 - 1 - k), 0))
        .collect();
    let types = vec![func(&[], &[])];
    (
        Sheet {
            strings,
            types,
            imports,
            ..Sheet::default()
        },
        hosts,
    )
}

fn hosts_alone(n: usize) -> (Sheet, Vec<HostEntry>) {
    (Sheet::default(), host_list(n))
}

/// One function with n parameters, each with a name of its own, and a call shape of n named arguments.
fn parameters(n: usize) -> (Sheet, Vec<HostEntry>) {
    let params = (0..n as u32)
        .map(|k| Param {
            flags: 0,
            name: Some(k),
        })
        .collect();
    let shape = (0..n as u32)
        .map(|name| ShapeEntry { kind: 1, name })
        .collect();
    let f = Function {
        params: Some(params),
        shapes: vec![shape],
        ..function(&vec![DYN; n], &[ret_void()])
    };
    let types = vec![func(&vec![DYN; n], &[])];
    (
        Sheet {
            strings: texts(n, "p"),
            types,
            functions: vec![f],
            ..Sheet::default()
        },
        Vec::new(),
    )
}

/// One struct with n fields, each with a name of its own.
fn fields(n: usize) -> (Sheet, Vec<HostEntry>) {
    let fields: Vec<_> = (0..n as u32).map(|k| (n as u32 - 1 - k, DYN)).collect();
    (
        Sheet {
            strings: texts(n, "f"),
            types: vec![structure(None, &fields)],
            ..Sheet::default()
        },
        Vec::new(),
    )
}

/// One function of n moves.
fn moves(n: usize) -> (Sheet, Vec<HostEntry>) {
    let mut code = vec![build::abc(op::MOVE, 0, 0, 1, 0); n];
    code.push(ret_void());
    let types = vec![func(&[], &[])];
    (
        Sheet {
            types,
            functions: vec![function(&[DYN; 2], &code)],
            ..Sheet::default()
        },
        Vec::new(),
    )
}

/// n functions of one instruction.
fn functions(n: usize) -> (Sheet, Vec<HostEntry>) {
    let types = vec![func(&[DYN], &[DYN])];
    let functions = vec![function(&[DYN], &[ret_void()]); n];
    (
        Sheet {
            types,
            functions,
            ..Sheet::default()
        },
        Vec::new(),
    )
}

/// n constants, arrays of two that come before, up to depth 64.
fn constants(n: usize) -> (Sheet, Vec<HostEntry>) {
    let constants = (0..n as u32)
        .map(|k| {
            if k % 64 == 0 {
                Constant::Plain(1, 2)
            } else {
                Constant::Array(vec![k - 1, k - k % 64])
            }
        })
        .collect();
    (
        Sheet {
            constants,
            ..Sheet::default()
        },
        Vec::new(),
    )
}

fn globals(n: usize) -> (Sheet, Vec<HostEntry>) {
    let globals = vec![
        Global {
            ty: DYN,
            init: None
        };
        n
    ];
    (
        Sheet {
            globals,
            ..Sheet::default()
        },
        Vec::new(),
    )
}

/// n exports of one type, each under a string of its own, in an edition that reads names.
fn exports(n: usize) -> (Sheet, Vec<HostEntry>) {
    let own = |name| export(ExportKind::Type, name, 0);
    (
        Sheet {
            edition: Edition::Second,
            strings: names(n).map(String::into_bytes).collect(),
            types: vec![TypeEntry::Coroutine],
            exports: (0..n as u32).rev().map(own).collect(),
            ..Sheet::default()
        },
        Vec::new(),
    )
}

/// Imports of so many parameters, all optional, and a function that calls each of them in turn, n calls with so many arguments.
fn calls(imports: usize, params: usize, n: usize, found: u8) -> (Sheet, Vec<HostEntry>) {
    let import = Import {
        params: listed(&vec![2; params]),
        ..import(0, 0, 1)
    };
    let call = |k| build::aw(op::CALL_IMPORT, found, 0, (k % imports) as u32);
    let mut code: Vec<u64> = (0..n).map(call).collect();
    code.push(ret_void());
    let regs = vec![DYN; 1 + usize::from(found)];
    (
        Sheet {
            edition: Edition::Second,
            strings: vec![Vec::new()],
            types: vec![func(&[], &[]), func(&vec![DYN; params], &[])],
            imports: vec![import; imports],
            functions: vec![function(&regs, &code)],
            ..Sheet::default()
        },
        vec![user("", "")],
    )
}

/// n calls with all of 200 optional arguments, of an import for each 200 of them, so that lists take half of the sheet.
fn arguments(n: usize) -> (Sheet, Vec<HostEntry>) {
    calls(n.div_ceil(200), 200, n, 200)
}

/// n calls without any of n optional arguments.
fn left_out(n: usize) -> (Sheet, Vec<HostEntry>) {
    calls(1, n, n, 0)
}

/// The bytes of a sheet and of its host list.
pub fn bytes(shape: &Shape, n: usize) -> (Vec<u8>, Vec<u8>) {
    let (sheet, hosts) = (shape.make)(n);
    (
        encode_sheet(&sheet).to_bytes(),
        encode_hosts(&hosts).to_bytes(),
    )
}
