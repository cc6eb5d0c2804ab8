//! Wrong rules of the arguments of imports are caught, each of which differs from the right one in one thing.

use sheets::build::abc;
use sheets::{op, CalleeKind, HookBinding, Param, Sheet, TypeEntry};

use super::assert_caught_given;
use super::misread::{first_read, misread, numbers};

/// How many parameters a func type has.
fn params(sheet: &Sheet, sig: u32) -> usize {
    match &sheet.types[sig as usize] {
        TypeEntry::Func { params, .. } => params.len(),
        _ => 0,
    }
}

fn mandatory(list: &[Param]) -> usize {
    list.iter().filter(|p| !p.is_optional()).count()
}

/// So many are taken as mandatory of a list.
fn taken_as(sheet: &mut Vec<u8>, hosts: &[u8], right: u32, count: fn(&[Param]) -> usize) {
    misread(sheet, hosts, right, |plain, _| {
        for list in plain.imports.iter_mut().filter_map(|i| i.params.as_mut()) {
            let count = count(list);
            for (i, p) in list.iter_mut().enumerate() {
                p.flags = if i < count { 0 } else { 2 };
            }
        }
        true
    });
}

#[test]
fn a_count_of_mandatory_arguments() {
    assert_caught_given(&[
        // One more, optional ones by reference too; one less, none, those by value alone, 8 bits.
        (
            |sheet, hosts| taken_as(sheet, hosts, 0, |list| mandatory(list) + 1),
            "answered [8, 0, ",
        ),
        (
            |sheet, hosts| taken_as(sheet, hosts, 0, |list| count(list, |flags| flags != 2)),
            "answered [8, 0, ",
        ),
        (
            |sheet, hosts| taken_as(sheet, hosts, 8, |list| mandatory(list).saturating_sub(1)),
            "expected [8, 0, ",
        ),
        (
            |sheet, hosts| taken_as(sheet, hosts, 8, |_| 0),
            "expected [8, 0, ",
        ),
        (
            |sheet, hosts| taken_as(sheet, hosts, 8, |list| count(list, |flags| flags == 0)),
            "expected [8, 0, ",
        ),
        (
            |sheet, hosts| taken_as(sheet, hosts, 8, |list| mandatory(list) % 256),
            "expected [8, 0, 256, ",
        ),
    ]);
}

fn count(list: &[Param], test: fn(u32) -> bool) -> usize {
    list.iter().filter(|p| test(p.flags)).count()
}

/// Every list is taken for that of the first import, where that is as long.
fn of_the_first(sheet: &mut Vec<u8>, hosts: &[u8], right: u32) {
    misread(sheet, hosts, right, |plain, _| {
        let first = plain.imports.first().and_then(|i| i.params.clone());
        let Some(first) = first else {
            return false;
        };
        let lists = plain.imports.iter_mut().filter_map(|i| i.params.as_mut());
        for list in lists.filter(|list| list.len() == first.len()) {
            list.clone_from(&first);
        }
        true
    });
}

/// The instruction that the answer is about.
fn told<'s>(plain: &'s mut Sheet, numbers: &[u32; 6]) -> Option<&'s mut u64> {
    let [f, position] = [numbers[4], numbers[5]].map(|n| (n as usize).checked_sub(1));
    plain.functions.get_mut(f?)?.code.get_mut(position?)
}

/// A call that is refused for its arguments passes, if it is one of these.
fn passes(sheet: &mut Vec<u8>, hosts: &[u8], is_one: fn(&Sheet, u64) -> bool) {
    misread(sheet, hosts, 8, |plain, right| {
        let Some(&mut inst) = told(plain, &right) else {
            return false;
        };
        // Codes with the same window, and any number of arguments.
        let other = match inst as u8 {
            op::TAIL_CALL => op::TAIL_CALL_INDIRECT,
            _ => op::D_CALL,
        };
        let (d, a) = ((inst >> 8) as u8, (inst >> 16) as u16);
        let too_few = u32::from(d) < right[2];
        let passes = too_few && is_one(plain, inst);
        if let Some(inst) = told(plain, &right) {
            *inst = abc(other, d, a, a, 0);
        }
        passes
    });
}

fn without_list(plain: &Sheet, inst: u64) -> bool {
    let imported = inst as u8 == op::CALL_IMPORT;
    imported && plain.imports[(inst >> 32) as usize].params.is_none()
}

#[test]
fn a_list_of_parameters() {
    assert_caught_given(&[
        // Unread, where arguments are left out and where too few are told; that of the first import; none as an optional one.
        (
            |sheet, hosts| taken_as(sheet, hosts, 0, <[Param]>::len),
            "answered [8, 0, ",
        ),
        (
            |sheet, hosts| taken_as(sheet, hosts, 8, <[Param]>::len),
            "expected [8, 0, ",
        ),
        (
            |sheet, hosts| of_the_first(sheet, hosts, 0),
            "answered [8, 0, ",
        ),
        (
            |sheet, hosts| of_the_first(sheet, hosts, 8),
            "expected [8, 0, ",
        ),
        (
            |sheet, hosts| passes(sheet, hosts, without_list),
            "expected [8, 0, ",
        ),
        // Read in edition 1.
        (
            |sheet, hosts| first_read(sheet, hosts, 0),
            "expected [8, 0, ",
        ),
    ]);
}

/// The most arguments are taken as this number of a list, where that is told of another call or with another number.
fn at_most(sheet: &mut Vec<u8>, hosts: &[u8], right: u32, most: fn(&[Param]) -> usize) {
    misread(sheet, hosts, right, |plain, _| {
        let Sheet { imports, types, .. } = plain;
        for import in imports {
            let sig = &mut types[import.sig as usize];
            if let (Some(list), TypeEntry::Func { params, .. }) = (&mut import.params, sig) {
                let most = most(list);
                list.truncate(most);
                params.truncate(most);
            }
        }
        numbers(plain, hosts)[0] == 8
    });
}

/// One less than there are, where one can be left out.
fn one_less(list: &[Param]) -> usize {
    list.len() - usize::from(mandatory(list) < list.len())
}

#[test]
fn a_count_of_all_arguments() {
    assert_caught_given(&[
        // 8 bits, one less; too many with the mandatory expected.
        (
            |sheet, hosts| at_most(sheet, hosts, 0, |list| list.len() % 256),
            "answered [8, 0, ",
        ),
        (
            |sheet, hosts| at_most(sheet, hosts, 0, one_less),
            "answered [8, 0, ",
        ),
        (
            |sheet, hosts| at_most(sheet, hosts, 8, mandatory),
            "expected [8, 0, ",
        ),
    ]);
}

/// The window is that of all arguments.
fn window_of_all(sheet: &mut Vec<u8>, hosts: &[u8]) {
    misread(sheet, hosts, 0, |plain, _| {
        let all: Vec<usize> = plain.imports.iter().map(|i| params(plain, i.sig)).collect();
        for inst in plain.functions.iter_mut().flat_map(|f| &mut f.code) {
            if *inst as u8 == op::CALL_IMPORT {
                let all = all[(*inst >> 32) as usize].min(255);
                *inst = *inst & !0xff00 | (all as u64) << 8;
            }
        }
        true
    });
}

/// The number of arguments is tested first, and then the window, which is one that holds from register 0 on.
fn arity_first(sheet: &mut Vec<u8>, hosts: &[u8]) {
    misread(sheet, hosts, 3, |plain, right| {
        let Some(inst) = told(plain, &right) else {
            return false;
        };
        *inst &= !0xffff_0000;
        let called = *inst as u8 == op::CALL_IMPORT;
        let wrong = numbers(plain, hosts);
        called && right[1] == 5 && wrong[0] == 8 && wrong[4..] == right[4..]
    });
}

#[test]
fn a_window_of_arguments() {
    assert_caught_given(&[
        (
            |sheet, hosts| window_of_all(sheet, hosts),
            "answered [3, 5, ",
        ),
        (|sheet, hosts| arity_first(sheet, hosts), "expected [3, 5, "),
    ]);
}

/// A function with a list of its own, and as many arguments as are mandatory by it.
fn of_function(plain: &Sheet, inst: u64) -> bool {
    let direct = matches!(inst as u8, op::CALL | op::CORO_NEW | op::TAIL_CALL);
    let callee = plain.functions.get((inst >> 32) as usize);
    let list = callee.and_then(|f| f.params.as_ref());
    direct && list.is_some_and(|list| mandatory(list) <= usize::from((inst >> 8) as u8))
}

/// Hooks are bound by the mandatory parameters: an import that has others is refused, or one with as many taken.
fn of_hooks(sheet: &mut Vec<u8>, hosts: &[u8], right: u32) {
    misread(sheet, hosts, right, |plain, _| {
        let Sheet { hooks, imports, .. } = plain;
        let fewest = |i: u32| {
            let list = imports.get(i as usize).and_then(|i| i.params.as_ref());
            list.map(|list| (mandatory(list), list.len()))
        };
        let is_other = |h: &HookBinding| {
            h.callee == CalleeKind::Import && fewest(h.index).is_some_and(|(r, n)| r < n)
        };
        let Some(place) = hooks.iter().position(is_other) else {
            return false;
        };
        match right {
            // A hook of another shape.
            0 => hooks[place].hook = if hooks[place].hook < 7 { 7 } else { 0 },
            _ => drop(hooks.remove(place)),
        }
        true
    });
}

#[test]
fn arguments_of_others() {
    assert_caught_given(&[
        (
            |sheet, hosts| passes(sheet, hosts, of_function),
            "expected [8, 0, ",
        ),
        (
            |sheet, hosts| of_hooks(sheet, hosts, 0),
            "answered [19, 0, ",
        ),
        (
            |sheet, hosts| of_hooks(sheet, hosts, 19),
            "expected [19, 0, ",
        ),
    ]);
}
