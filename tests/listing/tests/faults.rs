//! Small listings, a good one and one for each fault.

use listing::Listing;

fn list(members: &[impl AsRef<str>]) -> String {
    let members: Vec<&str> = members.iter().map(|member| member.as_ref()).collect();
    format!("[{}]", members.join(","))
}

/// A function of no parameters whose locals are of these types.
fn function(name: &str, locals: &[&str], body: &[&str], described: &[String]) -> String {
    let locals: Vec<String> =
        locals.iter().map(|local| format!(r#"{{"ty":{local},"home":"ValueLocal"}}"#)).collect();
    format!(
        r#"["{name}",{{"lifetimes":0,"outlives":[],"params":0,"generics":{{"types":[]}},"types":{},"locals":{},"body":{}}}]"#,
        list(described),
        list(&locals),
        list(body)
    )
}

fn named(name: &str) -> String {
    format!(r#"{{"Named":[{{"name":"{name}","lifetimes":[]}},[]]}}"#)
}

fn described(name: &str, shape: &str) -> String {
    format!(
        r#"{{"name":"{name}","lifetimes":0,"bounds":[],"type_params":0,"const_params":[],"type_bounds":[],"owns":false,"is_cell":false,"shape":{shape},"is_tuple":false}}"#
    )
}

fn described_struct(name: &str, types: &[&str]) -> String {
    described(name, &format!(r#"{{"Fields":{}}}"#, list(types)))
}

fn described_enum(name: &str, variants: &[String]) -> String {
    described(name, &format!(r#"{{"Variants":{}}}"#, list(variants)))
}

fn call(name: &str) -> String {
    format!(
        r#"{{"Call":[{{"Fn":["{name}",{{"types":[],"dicts":[]}}]}},[],{{"local":0,"steps":[]}}]}}"#
    )
}

const UNIT: &str = r#""Unit""#;
const SEQ: &str = r#""Seq""#;
const RETURN: &str = r#""Return""#;
const ARRAY: &str = r#"{"Array":[{"Int":8},{"Lit":4}]}"#;
const LENT_ARRAY: &str = r#"{"Ref":["Erased","Mut",{"Array":[{"Int":8},{"Lit":4}]}]}"#;

fn faults(text: &str) -> Vec<String> {
    Listing::parse(&[text]).map(|listing| listing.reach("a::root").faults).unwrap()
}

fn faults_of_body(body: &[&str]) -> Vec<String> {
    faults(&list(&[
        function("a::root", &[UNIT], body, &[]),
        function("a::leaf", &[UNIT], &[RETURN], &[]),
    ]))
}

fn faults_of_value(value: &str) -> Vec<String> {
    faults_of_body(&[&format!(r#"{{"Assign":[{{"local":0,"steps":[]}},{value}]}}"#)])
}

fn faults_of_local(local: &str, described: &[String]) -> Vec<String> {
    faults(&list(&[function("a::root", &[UNIT, local], &[RETURN], described)]))
}

fn good() -> String {
    let slice = r#"{"Struct":["&[]",[{"Ref":[{"Named":0},"Imm",{"Int":8}]},{"Int":64}]]}"#;
    let inner = r#"{"Named":[{"name":"a::Inner","lifetimes":[{"Bound":0},"Static"]},[]]}"#;
    let fields = list(&[inner, r#"{"Int":64}"#]);
    let one = call("a::one");
    let body = [
        SEQ,
        r#""Block""#,
        r#""Loop""#,
        r#"{"If":{"Copy":{"local":1,"steps":[]}}}"#,
        &one,
        r#"{"Exit":1}"#,
        r#"{"Switch":[{"Int":{"width":8,"value":1}},[[1],[2,3]],true]}"#,
        &call("b::two"),
        &one,
        r#""Skip""#,
    ];
    let described = [
        described_enum("a::Answer", &[fields, list(&[""; 0])]),
        described_struct("a::Inner", &[r#""Ptr""#, r#"{"Float":64}"#, LENT_ARRAY]),
    ];
    let unit = r#"{"Assign":[{"local":0,"steps":[]},{"Opd":"Unit"}]}"#;
    let no_arms = r#"{"Switch":[{"Int":{"width":8,"value":1}},[],false]}"#;
    list(&[
        function("a::unreached", &[ARRAY], &[&one], &[]),
        function("a::one", &[UNIT, slice], &[unit], &[]),
        function("b::two", &[LENT_ARRAY, r#""Bool""#], &[no_arms], &[]),
        function("a::root", &[UNIT, &named("a::Answer"), inner], &body, &described),
    ])
}

#[test]
fn good_listing() {
    let text = good();
    let reached = Listing::parse(&[&text]).unwrap().reach("a::root");
    assert_eq!(reached.faults, [""; 0]);
    let locals = |name: &str, count| (name.to_string(), count);
    assert_eq!(reached.functions, [locals("a::root", 3), locals("b::two", 2), locals("a::one", 2)]);
}

#[test]
fn several_crates() {
    let root = list(&[function("a::root", &[UNIT], &[&call("b::leaf")], &[])]);
    let leaf = list(&[function("b::leaf", &[UNIT, ARRAY], &[RETURN], &[])]);
    let reached = Listing::parse(&[&root, &leaf]).unwrap().reach("a::root");
    assert_eq!(reached.functions.len(), 2);
    assert_eq!(reached.faults, ["b::leaf: local 1 holds an array"]);
    assert_eq!(faults(&root), ["a::root: calls b::leaf, which is not in the listing"]);
    assert!(Listing::parse(&[&root, &root]).is_err());
}

#[test]
fn recursion_ends() {
    let body = [SEQ, &call("a::root"), &call("a::one")];
    let text = list(&[
        function("a::root", &[UNIT], &body, &[]),
        function("a::one", &[UNIT], &[&call("a::root")], &[]),
    ]);
    let reached = Listing::parse(&[&text]).unwrap().reach("a::root");
    assert_eq!((reached.functions.len(), reached.faults.len()), (2, 0));
    let within_itself = [described_struct("a::Ring", &[&named("a::Ring")])];
    assert_eq!(faults_of_local(&named("a::Ring"), &within_itself), [""; 0]);
}

#[test]
fn long_lists_take_no_stack() {
    let count = 100_000;
    let names: Vec<String> = (0..count).map(|number| format!("a::f{number}")).collect();
    let functions: Vec<String> = (0..count)
        .map(|number| {
            function(&names[number], &[UNIT], &[&call(&names[(number + 1) % count])], &[])
        })
        .collect();
    let text = list(&functions);
    let reached = Listing::parse(&[&text]).unwrap().reach("a::f0");
    assert_eq!((reached.functions.len(), reached.faults.len()), (count, 0));
    let mut body = [SEQ, r#""Skip""#].repeat(count);
    body.push(RETURN);
    assert_eq!(faults_of_body(&body), [""; 0]);
    let deep = "[".repeat(count) + &"]".repeat(count);
    assert_eq!(faults_of_body(&[&deep]), ["a::root: a statement is of unknown form"]);
}

#[test]
fn missing_functions() {
    assert_eq!(faults("[]"), ["a::root: not in the listing"]);
    let body = [&call("b::other")[..]];
    assert_eq!(faults_of_body(&body), ["a::root: calls b::other, which is not in the listing"]);
}

#[test]
fn bodies_that_are_no_tree() {
    let skip = r#""Skip""#;
    let open = r#"{"Switch":[{"Int":{"width":8,"value":1}},[[0]],true]}"#;
    for body in [
        &[][..],
        &[SEQ],
        &[SEQ, skip],
        &[skip, skip],
        &[r#""Loop""#],
        &[open, skip],
        &[open, skip, skip, skip],
    ] {
        assert_eq!(faults_of_body(body), ["a::root: its body is no tree"], "{body:?}");
    }
    let odd = r#"{"Switch":[{"Int":{"width":8,"value":1}},[],1]}"#;
    assert_eq!(faults_of_body(&[odd]), ["a::root: a switch is of unknown form"]);
}

#[test]
fn hidden_callees() {
    let place = r#"{"local":0,"steps":[]}"#;
    let unresolved = ["a::root: a callee is not resolved"];
    for target in [
        r#"{"Method":[{"Given":0},0,{"types":[],"dicts":[]}]}"#,
        r#"{"Fn":"a::leaf"}"#,
        r#"{"Fn":["a::leaf",{"types":["Unit"],"dicts":[]}]}"#,
        r#"{"Fn":["a::leaf",{"types":[],"dicts":[{"Given":0}]}]}"#,
        r#""a::leaf""#,
    ] {
        let body = [&format!(r#"{{"Call":[{target},[],{place}]}}"#)[..]];
        assert_eq!(faults_of_body(&body), unresolved, "{target}");
    }
    let unknown = ["a::root: a statement is of unknown form"];
    let known = r#"{"Fn":["a::leaf",{"types":[],"dicts":[]}]}"#;
    for statement in [
        format!(r#"{{"Jump":[{known}]}}"#),
        format!(r#"{{"Call":[{known},[]]}}"#),
        format!(r#"{{"CallV":[{known},[],{place}]}}"#),
        r#"{"Foreign":{"symbol":"close"}}"#.to_string(),
    ] {
        assert_eq!(faults_of_body(&[&statement]), unknown, "{statement}");
    }
}

#[test]
fn functions_named_elsewhere() {
    let taken = ["a::root: a function's address is taken"];
    let leaf = r#"{"Fn":["a::leaf",{"types":[],"dicts":[]}]}"#;
    assert_eq!(faults_of_value(&format!(r#"{{"Opd":{leaf}}}"#)), taken);
    let body = format!(r#"{{"Call":[{leaf},[{leaf}],{{"local":0,"steps":[]}}]}}"#);
    assert_eq!(faults_of_body(&[&body]), taken);
}

#[test]
fn known_values() {
    let local = r#"{"Copy":{"local":0,"steps":[{"Variant":0},{"Field":1}]}}"#;
    let lent = r#"{"Copy":{"local":1,"steps":[{"Deref":{"Int":8}}]}}"#;
    let number = r#"{"Int":{"width":8,"value":1}}"#;
    for value in [
        format!(r#"{{"Op1":[{{"Cast":["Unsigned","Unsigned",8]}},{local}]}}"#),
        format!(r#"{{"Op2":[{{"Add":"Unsigned"}},{lent},{number}]}}"#),
        format!(r#"{{"Op2":["Offset",{local},{number}]}}"#),
        r#"{"AddrOf":{"local":1,"steps":[{"Deref":{"Int":8}}]}}"#.to_string(),
        format!(r#"{{"Aggregate":[{local},"True"]}}"#),
    ] {
        assert_eq!(faults_of_value(&value), [""; 0], "{value}");
    }
}

#[test]
fn unknown_values() {
    let unknown = ["a::root: a value is of unknown form"];
    let number = r#"{"Int":{"width":8,"value":1}}"#;
    for value in [
        r#"{"Address":"a::leaf"}"#.to_string(),
        r#"{"Opd":{"Text":"a"}}"#.to_string(),
        format!(r#"{{"Op1":[{{"Apply":"a::leaf"}},{number}]}}"#),
        format!(r#"{{"Op2":[{{"Add":"Unsigned"}},{number}]}}"#),
        r#"{"AddrOf":{"index":[1,2]}}"#.to_string(),
        r#"{"Aggregate":{"Unknown":1}}"#.to_string(),
        r#"{"Opd":{"Copy":{"local":1,"steps":[{"Index":2}]}}}"#.to_string(),
    ] {
        assert_eq!(faults_of_value(&value), unknown, "{value}");
    }
    let skip = r#""Skip""#;
    assert_eq!(faults_of_body(&[r#"{"If":{"Fresh":1}}"#, skip, skip]), unknown);
}

#[test]
fn arrays_in_values() {
    let repeated = r#"{"Repeat":[{"Int":{"width":8,"value":0}},{"Lit":4}]}"#;
    assert_eq!(faults_of_value(repeated), ["a::root: a value is repeated into an array"]);
    let place = format!(r#"{{"local":1,"steps":[{{"Deref":{ARRAY}}}]}}"#);
    let led = ["a::root: what a pointer leads to holds an array"];
    assert_eq!(faults_of_value(&format!(r#"{{"Opd":{{"Copy":{place}}}}}"#)), led);
    let assigned = format!(r#"{{"Assign":[{place},{{"Aggregate":[]}}]}}"#);
    assert_eq!(faults_of_body(&[&assigned]), led);
}

#[test]
fn arrays() {
    assert_eq!(faults_of_local(ARRAY, &[]), ["a::root: local 1 holds an array"]);
    let in_struct = format!(r#"{{"Struct":["",{}]}}"#, list(&[r#""Bool""#, ARRAY, UNIT]));
    assert_eq!(faults_of_local(&in_struct, &[]), ["a::root: local 1 holds an array"]);

    let none = list(&[""; 0]);
    let held = list(&[r#""Bool""#, &named("a::Inner")]);
    let outer = described_enum("a::Outer", &[none.clone(), held]);
    let in_outer = |inner: String| faults_of_local(&named("a::Outer"), &[outer.clone(), inner]);
    let fault = ["a::root: local 1 holds an array in a::Inner"];
    assert_eq!(in_outer(described_struct("a::Inner", &[r#"{"Int":8}"#, ARRAY])), fault);
    let last = [none, list(&[r#""Bool""#, ARRAY])];
    assert_eq!(in_outer(described_enum("a::Inner", &last)), fault);
    assert_eq!(in_outer(described_struct("a::Inner", &[LENT_ARRAY])), [""; 0]);
}

#[test]
fn types_that_are_taken() {
    let answer = |of: &str, error: &str| {
        format!(r#"{{"Named":[{{"name":"a::Answer","lifetimes":[]}},[{of},{error}]]}}"#)
    };
    let variants =
        |second: &str| described_enum("a::Answer", &[list(&[r#"{"Param":0}"#]), list(&[second])]);
    let plain = variants(r#"{"Param":1}"#);
    let number = r#"{"Int":64}"#;
    let fault = |local: String, shape: &String| faults_of_local(&local, &[shape.clone()]);
    assert_eq!(fault(answer(number, UNIT), &plain), [""; 0]);
    assert_eq!(fault(answer(&answer(number, UNIT), UNIT), &plain), [""; 0]);
    let held = ["a::root: local 1 holds an array"];
    assert_eq!(fault(answer(ARRAY, UNIT), &plain), held);
    assert_eq!(fault(answer(&answer(UNIT, ARRAY), UNIT), &plain), held);
    let within = ["a::root: local 1 holds an array in a::Answer"];
    assert_eq!(fault(answer(number, UNIT), &variants(ARRAY)), within);
    let unknown = ["a::root: local 1 holds a::Answer, in which a type is of unknown form"];
    let nested = answer(r#"{"Param":1}"#, number);
    assert_eq!(fault(answer(number, UNIT), &variants(&nested)), unknown);
}

#[test]
fn an_array_of_a_callee() {
    let text = list(&[
        function("a::leaf", &[UNIT, UNIT, ARRAY, ARRAY], &[RETURN], &[]),
        function("a::root", &[UNIT], &[&call("a::leaf")], &[]),
    ]);
    let expected = ["a::leaf: local 2 holds an array", "a::leaf: local 3 holds an array"];
    assert_eq!(faults(&text), expected);
}

#[test]
fn unknown_types() {
    let unknown = ["a::root: local 1 is of a type of unknown form"];
    let of_type = r#"{"Named":[{"name":"a::Box","lifetimes":[]},[{"Int":8}]]}"#;
    let lent_type = r#"{"Named":[{"name":"a::Box","lifetimes":[{"Int":8}]},[]]}"#;
    let param = r#"{"Param":0}"#;
    for local in
        [r#""Fn""#, r#"{"Vec":[{"Int":8}]}"#, r#""Int""#, "0", "[]", param, of_type, lent_type]
    {
        assert_eq!(faults_of_local(local, &[]), unknown, "{local}");
    }
    assert_eq!(faults_of_local(r#"{"Struct":["",{"Int":8}]}"#, &[]), unknown);

    let answer = named("a::Answer");
    let missing = ["a::root: local 1 holds a::Answer, which is not described"];
    assert_eq!(faults_of_local(&answer, &[described_struct("a::Other", &[])]), missing);
    let within = ["a::root: local 1 holds a::Answer, in which a type is of unknown form"];
    for types in [r#""Fn""#, param] {
        assert_eq!(faults_of_local(&answer, &[described_struct("a::Answer", &[types])]), within);
    }
    let union = described("a::Answer", r#"{"Union":[]}"#);
    assert_eq!(faults_of_local(&answer, &[union]), within);
}

#[test]
fn texts() {
    let text = |name: &str| list(&[function(name, &[UNIT], &[RETURN], &[])]);
    let reach = |text: &str, name: &str| Listing::parse(&[text]).map(|it| it.reach(name).faults);
    assert_eq!(reach(&text(r#"a::\"],\\"#), r#"a::\"],\\"#), Ok(vec![]));
    assert_eq!(reach(&text(r#"a::"#), "a::b"), Ok(vec!["a::b: not in the listing".to_string()]));
    assert!(reach(&text(r#"a::"b"#), "a::").is_err());
}

#[test]
fn no_listing() {
    let text = good();
    for end in 0..text.len() {
        assert!(Listing::parse(&[&text[..end]]).is_err(), "cut at {end}");
    }
    for other in [
        format!("{text}]"),
        format!("{text} {text}"),
        format!("{text},"),
        format!(r#"{{"functions":{text}}}"#),
        text.replacen("\"locals\"", "\"slots\"", 1),
        text.replacen("\"lifetimes\":0,", "", 1),
        text.replacen("\"ty\"", "\"type\"", 1),
        text.replacen("b::two", "a::one", 1),
        text.replacen("[\"a::one\",{\"lifetimes", "[1,{\"lifetimes", 1),
        text.replacen(
            "\"name\":\"a::Inner\",\"lifetimes\":0",
            "\"name\":\"a::Answer\",\"lifetimes\":0",
            1,
        ),
        text.replacen(",\"is_tuple\":false", "", 1),
        text.replacen("[[1],[2,3]]", "[[1],,[2,3]]", 1),
        text.replacen("[[1],[2,3]]", "[[1] [2,3]]", 1),
        text.replacen("[[1],[2,3]]", "[[1],[2,3],]", 1),
        text.replacen("[[1],[2,3]]", "[[1],[2,3}]", 1),
        text.replacen("[[1],[2,3]]", "[[1],[2:3]]", 1),
        text.replacen("[[1],[2,3]]", "[[1],[two]]", 1),
        text.replacen("\"value\":1", "\"value\"", 1),
        text.replacen("\"value\":1", "\"value\":1,", 1),
        text.replacen("\"value\":1", "value:1", 1),
    ] {
        assert_ne!(text, other);
        assert!(Listing::parse(&[&other]).is_err(), "{other}");
    }
}
