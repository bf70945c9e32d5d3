#!/usr/bin/env python3
"""Cases of conditions whose answers were worked out by hand, asked of the second implementation here. It is no part of the gate. It prints a line for
each that is answered otherwise; the last line is 'N passed, M failed'."""
import json
import sys

sys.dont_write_bytecode = True

from meaning import answer  # noqa: E402

REQUEST = {"resourceSpans": [{
    "resource": {"attributes": [{"key": "service.name", "value": {"stringValue": "shop"}}], "droppedAttributesCount": 5},
    "scopeSpans": [{
        "scope": {"name": "lib", "version": "1.2", "attributes": [{"key": "k", "value": {"stringValue": "v"}}]},
        "spans": [{
            "traceId": "5B8EFFF798038103D269B633813FC60C", "spanId": "eee19b7ec3c1b174", "parentSpanId": "eee19b7ec3c1b173",
            "traceState": "a=b", "name": "GET /cart", "kind": 2, "startTimeUnixNano": "1000000000",
            "endTimeUnixNano": "3500000000", "droppedAttributesCount": 3, "droppedEventsCount": 1, "droppedLinksCount": 4,
            "status": {"code": 2, "message": "no"},
            "attributes": [
                {"key": "s", "value": {"stringValue": "POST"}},
                {"key": "uml", "value": {"stringValue": "ä€b"}},
                {"key": "i", "value": {"intValue": "503"}},
                {"key": "min", "value": {"intValue": "-9223372036854775808"}},
                {"key": "max", "value": {"intValue": "9223372036854775807"}},
                {"key": "big", "value": {"intValue": "9007199254740993"}},
                {"key": "f", "value": {"doubleValue": 0.5}},
                {"key": "nan", "value": {"doubleValue": "NaN"}},
                {"key": "huge", "value": {"doubleValue": 1e300}},
                {"key": "t", "value": {"boolValue": True}},
                {"key": "u", "value": {"boolValue": False}},
                {"key": "l", "value": {"arrayValue": {"values": [{"stringValue": "x"}, {"intValue": "2"}, {}]}}},
                {"key": "l2", "value": {"arrayValue": {"values": [{"stringValue": "x"}, {"intValue": "2"}, {}]}}},
                {"key": "li", "value": {"arrayValue": {"values": [{"intValue": "1"}]}}},
                {"key": "lf", "value": {"arrayValue": {"values": [{"doubleValue": 1.0}]}}},
                {"key": "ln", "value": {"arrayValue": {"values": [{"doubleValue": "NaN"}]}}},
                {"key": "m", "value": {"kvlistValue": {"values": [{"key": "a", "value": {"intValue": "1"}},
                                                                  {"key": "b", "value": {"intValue": "2"}}]}}},
                {"key": "n", "value": {"kvlistValue": {"values": [{"key": "b", "value": {"intValue": "2"}},
                                                                  {"key": "a", "value": {"intValue": "1"}}]}}},
                {"key": "aa", "value": {"kvlistValue": {"values": [{"key": "a", "value": {"intValue": "1"}},
                                                                   {"key": "a", "value": {"intValue": "1"}}]}}},
                {"key": "deep", "value": {"kvlistValue": {"values": [{"key": "l", "value": {"arrayValue": {"values": [
                    {"kvlistValue": {"values": [{"key": "x", "value": {"stringValue": "y"}}]}}]}}}]}}},
                {"key": "raw", "value": {"bytesValue": "YWI="}},
                {"key": "odd", "value": {"bytesValue": "YQ!"}},
                {"key": "none", "value": {}},
                {"key": "twice", "value": {"intValue": 1}},
                {"key": "twice", "value": {"intValue": 2}},
                {"key": "d", "value": {"stringValue": "1.5s"}},
            ],
            "events": [{"timeUnixNano": "1500000000", "name": "exception", "droppedAttributesCount": 2,
                        "attributes": [{"key": "exception.type", "value": {"stringValue": "IOError"}}]},
                       {"timeUnixNano": "1", "name": "other"}],
        }]}]}]}
ROOT = {"resourceSpans": [{"scopeSpans": [{"spans": [
    {"traceId": "5b8efff798038103d269b633813fc60c", "spanId": "eee19b7ec3c1b174", "kind": 9,
     "startTimeUnixNano": "18446744073709551615", "endTimeUnixNano": "9223372036854775807"}]}]}]}

T, F, E, X = "true", "false", "error", "fault"
SPAN = [
    # comparisons of equal types
    ('name == "GET /cart"', T), ('name != "GET /cart"', F), ('name < "GET /d"', T), ('name >= "GET /cart"', T), ('name > "a"', F), ('"Z" < "a"', T),
    ('"" < "a"', T), ('attributes["uml"] > "z"', T), ("kind == 2", T), ("kind==2", T), ("kind > -1", T), ("kind>-1", T), ("kind < 2", F),
    ("kind <= 2", T), ("2 >= kind", T), ("true > false", T), ("true <= true", T), ("false >= true", F), ('attributes["t"] == true', T),
    ("1.5 < 2.5", T), (".5 == 0.5", T), ("-.5 < +.5", T), ("1.5e3 == 1500.0", T), ("-0.0 == 0.0", T), ("0.0 == 0", T), ("0x61 < 0x6162", T),
    ("0xFF == 0xff", T), ('attributes["raw"] == 0x6162', T), ('attributes["odd"] == 0x61', T), ("nil == nil", T), ("nil <= nil", T),
    ("nil >= nil", T), ("nil < nil", F), ("nil != nil", F),
    # numbers of two types, as float64
    ('attributes["big"] == 9007199254740992.0', T), ('attributes["big"] == 9007199254740992', F), ("1 < 1.5", T), ("1 == 1.0", T),
    ('attributes["max"] == 9223372036854775807.0', T),
    # NaN
    ('attributes["nan"] == attributes["nan"]', F), ('attributes["nan"] != attributes["nan"]', T), ('attributes["nan"] < 1', F),
    ('attributes["nan"] >= 1', F),
    # types apart
    ('"1" == 1', F), ('"1" != 1', T), ('"1" < 2', F), ("true == 1", F), ("true != 1", T), ("0x61 == \"a\"", F), ('nil == ""', F), ('nil != 0', T),
    ("nil < 1", F), ("end_time - start_time > 5", F), ("end_time - start_time != 5", T), ("start_time == 1000000000", F),
    # maps and lists
    ('attributes["m"] == attributes["n"]', T), ('attributes["m"] <= attributes["m"]', F), ('attributes["l"] == attributes["l2"]', T),
    ('attributes["l"] != attributes["l2"]', F), ('attributes["li"] == attributes["lf"]', F), ('attributes["li"] != attributes["lf"]', T),
    ('attributes["ln"] == attributes["ln"]', F), ('attributes["aa"] == attributes["m"]', T), ('attributes["m"] == attributes["aa"]', F),
    ('attributes["l"] >= attributes["l"]', F), ('attributes["l"] == attributes["m"]', F), ('attributes["l"] != nil', T),
    # keys
    ('attributes["missing"] == nil', T), ('attributes["missing"]["a"][3]["b"] == nil', T), ('attributes["s"]["a"] == nil', E),
    ('attributes["none"] == nil', T), ('attributes["none"]["a"] == nil', E), ('attributes["l"][1] == 2', T), ('attributes["l"][2] == nil', T),
    ('attributes["l"][3] == nil', E), ('attributes["l"][-1] == nil', E), ('attributes["l"]["a"] == nil', E), ('attributes["m"]["b"] == 2', T),
    ('attributes["m"][0] == nil', E), ('attributes["m"]["c"] == nil', T), ('attributes["deep"]["l"][0]["x"] == "y"', T),
    ('attributes["deep"]["l"][0]["z"]["q"] == nil', T), ('attributes["twice"] == 1', T), ('attributes["i"][0] == 1', E),
    ('resource.attributes["service.name"] == "shop"', T), ('instrumentation_scope.attributes["k"] == "v"', T), ("Len(attributes) == 26", T),
    # paths
    ('instrumentation_scope.name == "lib" and instrumentation_scope.version == "1.2"', T), ('kind.string == "Server"', T),
    ("status.code == STATUS_CODE_ERROR", T), ("kind == SPAN_KIND_SERVER", T), ('status.message == "no"', T), ('trace_state == "a=b"', T),
    ('trace_id.string == "5b8efff798038103d269b633813fc60c"', T), ('parent_span_id.string == "eee19b7ec3c1b173"', T),
    ("dropped_attributes_count == 3 and dropped_events_count == 1 and dropped_links_count == 4", T), ('span.name == "GET /cart"', T),
    ("IsRootSpan()", F), ("end_time_unix_nano - start_time_unix_nano == 2500000000", T),
    # sums
    ("1 + 2 * 3 == 7", T), ("(1 + 2) * 3 == 9", T), ("7 / 2 == 3", T), ("-7 / 2 == -3", T), ("7 / 2.0 == 3.5", T), ("8 - 2 - 1 == 5", T),
    ("8 / 4 / 2 == 1", T), ("1--2 == 3", T), ("1- 2 == -1", T), ('attributes["max"] + 1 == attributes["min"]', T),
    ('attributes["min"] / -1 == attributes["min"]', T), ('attributes["max"] * 2 == -2', T), ("1 / 0 == 1", E), ("1.0 / 0 == 1", E),
    ("1 / 0.0 == 1", E), ('attributes["huge"] * attributes["huge"] > attributes["huge"]', T), ('name + 1 == 1', E),
    ('attributes["missing"] + 1 == nil', E), ('attributes["t"] + 1 == 2', E), ("0.1 + 0.2 == 0.3", F),
    # times
    ('end_time - start_time == Duration("2.5s")', T), ("start_time < end_time", T), ("start_time + end_time == 1", E),
    ('start_time + Duration("1s") == end_time', E), ('Duration("1s") * 2 == Duration("2s")', E),
    ('Duration(attributes["d"]) == Duration("1500ms")', T), ('Duration("1h2m3.5s") == Duration("3723.5s")', T),
    ('Duration("0") == Duration("-0ns")', T), ('Duration("1") == nil', E), ('Duration("") == nil', E), ('Duration("1d") == nil', E),
    ('Duration(1) == nil', E), ('Duration("2562047h47m16.854775807s") > Duration("1s")', T), ('Duration("2562047h47m16.854775808s") == nil', E),
    ('Duration("-2562047h47m16.854775808s") == nil', E), ('Duration("1.9999999999s") < Duration("2s")', T),
    ('Duration("1.s") == Duration("1000ms")', T), ('Duration(".5s") == Duration("500ms")', T), ('Duration(".s") == nil', E),
    ('Duration("1µs") == Duration("1us")', T),
    # functions
    ('IsMatch(name, "^GET /[a-z]+$")', T), ('IsMatch(name, "cart")', T), ('IsMatch(name, "^cart")', F), ('IsMatch(attributes["i"], "^50[0-9]$")', T),
    ('IsMatch(attributes["t"], "true")', T), ('IsMatch(attributes["missing"], ".*")', F), ('IsMatch(attributes["f"], ".*")', E),
    ('IsMatch(attributes["raw"], ".*")', E), ('IsMatch(attributes["l"], ".*")', E), ('IsMatch(name, name)', X), ('IsMatch(name, "(")', X),
    ('IsMatch(name)', X), ('IsMatch(target = name, "a")', X), ('IsMatch(name, "a", "b")', X), ('IsString(name)', T), ('IsString(kind)', F),
    ('IsString(attributes["missing"])', F), ('IsInt(kind)', T), ('IsInt(1.5)', F), ('IsDouble(1.5)', T), ('IsDouble(1)', F), ('IsBool(true)', T),
    ('IsBool("true")', F), ('IsMap(attributes["m"])', T), ('IsMap(attributes)', T), ('IsList(attributes["l"])', T), ('IsList(attributes["m"])', F),
    ('IsString(Len(1))', E), ('HasPrefix(name, "GET")', T), ('HasSuffix(name, "cart")', T), ('HasPrefix(name, "")', T),
    ('HasPrefix(attributes["missing"], "a")', E), ('HasSuffix(kind, "a")', E), ('Len(name) == 9', T), ('Len(attributes["uml"]) == 6', T),
    ('Len(attributes["l"]) == 3', T), ('Len(attributes["m"]) == 2', T), ('Len(attributes["raw"]) == 2', E), ('Len(nil) == 0', E),
    ('Len(kind) == 0', E), ('Len(name)', E), ('not Len(name)', E), ('Len(name) and true', E), ('true or Len(name)', T), ('Int("42") == 42', T),
    ('Int("a") == nil', T), ('Int("0x10") == nil', T), ('Int(1.9) == 1', T), ('Int(-1.9) == -1', T), ('Int(true) == 1', T), ('Int(nil) == nil', T),
    ('Int(attributes["huge"]) == 9223372036854775807', T), ('Int(attributes["nan"]) == 0', T), ('Int("9223372036854775808") == nil', T),
    ('Int(attributes["l"]) == nil', T), ('Double("1.5") == 1.5', T), ('Double("Inf") == nil', T), ('Double("0x1p-2") == nil', T),
    ('Double(2) == 2.0', T), ('Double(true) == 1.0', T), ('IsDouble(Double(2))', T), ('String(kind) == "2"', T), ('String(true) == "true"', T),
    ('String(nil) == nil', T), ('String(1.5) == "1.5"', E), ('String(attributes["l"]) == nil', E), ('String(start_time) == nil', E),
    ('Substring(name, 0, 3) == "GET"', T), ('Substring(name, 4, 5) == "/cart"', T), ('Substring(name, 4, 6) == ""', E),
    ('Substring(name, -1, 2) == ""', E), ('Substring(name, 0, 0) == ""', E), ('Substring(attributes["uml"], 0, 1) == ""', E),
    ('Substring(attributes["uml"], 2, 3) == "€"', T), ('Substring(name, 9223372036854775807, 9223372036854775807) == ""', E),
    ('Substring(name, 0, 1.0) == "G"', E),
    # texts that are made
    ('ConvertCase(name, "upper") == "GET /CART"', T), ('ConvertCase(name, "lower") == "get /cart"', T),
    ('ConvertCase(attributes["uml"], "upper") == "Ä€B"', T), ('ConvertCase("straße", "upper") == "STRAßE"', T),
    ('ConvertCase("ΣΑΣ", "lower") == "σασ"', T), ('ConvertCase("ᾳ", "upper") == "ᾼ"', T), ('ConvertCase("İ", "lower") == "i"', T),
    ('ConvertCase(kind, "lower") == ""', E), ('ConvertCase(attributes["missing"], "lower") == ""', E), ('ConvertCase("", "lower") == ""', T),
    ('ConvertCase(name, "snake") == ""', X), ('ConvertCase(name, "camel") == ""', X), ('ConvertCase(name, name) == ""', X),
    ('ConvertCase(name) == ""', X), ('ConvertCase(name, "lower", "a") == ""', X), ('ConvertCase(name, "lower")', E),
    ('Concat(["a"], "") == "a"', T), ('Concat([name, kind], ": ") == "GET /cart: 2"', T), ('Concat([], ",") == ""', T),
    ('Concat([nil, true, -1], ",") == "<nil>,true,-1"', T), ('Concat([attributes["missing"], "a"], "") == "<nil>a"', T),
    ('Concat([1.5], "") == "1.5"', E), ('Concat([attributes["l"], "a"], "") == ""', E), ('Concat([start_time], "") == ""', E),
    ('Concat([attributes["raw"]], "") == ""', E), ('Concat(["a", Concat(["b", "c"], "-")], "+") == "a+b-c"', T),
    ('ConvertCase(Concat(["a", "b"], "c"), "upper") == "ACB"', T), ('Concat(name, ",") == ""', X), ('Concat([name]) == ""', X),
    ('Concat([name], name) == ""', X), ('Concat([name, ], "") == ""', X), ('Concat([name == "a"], "") == ""', X), ('Concat([], "")', X),
    ('Concat([[name]], "") == ""', X), ('Len(Concat(["ä", "b"], "")) == 3', T), ('IsMatch(Concat([name, kind], ""), "cart2$")', T),
    # and, or, not
    ("true or false and false", T), ("(true or false) and false", F), ("false and true or true", T), ("not true or true", T),
    ("not (true or true)", F), ("not not true", T), ("not kind == 2", F), ("false and Len(name)", F), ('1 / 0 == 1 or true', E),
    ('true or 1 / 0 == 1', T), ('1 / 0 == 1 and false', E), ("true", T), ("(false)", F), ("((true))", T), ('("a") == name', F), ("(true) == true", T),
    ("(kind) == (2)", T), ("true == true", T), ("(IsInt(kind)) == true", T),
    # faults
    ("", X), ("name", X), ("(name)", X), ("nil", X), ("1", X), ("kind == 1 == 1", X), ("kind-1 == 1", X), ("1 -2 == 1", X), ("-kind == 1", X),
    ("kind =2", X), ("kind === 2", X), ("status . code == 2", X), ("status .code == 2", X), ("Is Match(name, \"a\")", X), ("SPAN_KIND == 1", X),
    ('"\\x41" == "A"', X), ('"\\u00e9" == "a"', X), ('"\\101" == "A"', X), ('"\\\'" == "a"', X), ('"\\n\\t\\\\\\"" == "a"', F), ("0xabc == 0xabc", X),
    ("9223372036854775808 == 1", X), ("-9223372036854775808 < 1", T), ("1.5e999 == 1.5", X), ("1. == 1", X), ("1e5 == 1", X), ('name["a"] == 1', X),
    ("scope.name == \"a\"", X), ("spanevent.name == \"a\"", X), ("event_index == 1", X), ("trace_id == 1", X), ("Now() == 1", X),
    ("Time(\"a\") == 1", X), ("attributes[name] == 1", X),
    ('Int("1")[0] == 1', X), ('[1] == [1]', X), ("not", X), ("true and", X), ("true true", X), ("(true", X), ("true)", X), ("name == 'a'", X),
    ('name == "a', X), ("True", X), ("TRUE", X), ("kind == not true", X), ("IsRootSpan", X), ("IsRootSpan(1)", X), ("isRootSpan()", X), ("Len()", X),
    ("Len(name,) == 1", X), ("(kind == 2) == true", X), ("IsBool(kind == 2)", X), ("1.5.5 == 1", X), ("true && true", X), ('name =~ "a"', X),
    ("and true", X), ("or", X),
]
ROOTS = [
    ("IsRootSpan()", T), ('parent_span_id.string == "0000000000000000"', T), ('kind.string == ""', T), ("start_time_unix_nano == -1", T),
    ('name == ""', T), ("status.code == STATUS_CODE_UNSET", T), ('resource.attributes["a"] == nil', T),
    ('end_time - start_time == Duration("2562047h47m16.854775807s")', T), ("attributes == nil", F), ("Len(attributes) == 0", T),
    ('instrumentation_scope.name == ""', T),
]
EVENTS = [
    ('name == "exception"', T), ('spanevent.name == "exception"', T), ("time_unix_nano == 1500000000", T),
    ('attributes["exception.type"] == "IOError"', T), ("dropped_attributes_count == 2", T), ("span.kind == 2", T), ("kind == 1", X),
    ("event_index == 0", X), ('span.attributes["s"] == "POST"', T), ("span.dropped_attributes_count == 3", T),
    ('resource.attributes["service.name"] == "shop"', T), ('time - span.start_time == Duration("500ms")', T), ("spanevent.time > span.start_time", T),
    ("start_time_unix_nano == 1", X), ('instrumentation_scope.name == "lib"', T), ("span.spanevent.name == \"a\"", X),
]


def main():
    passed = failed = 0
    for cases, request, event in ((SPAN, REQUEST, False), (ROOTS, ROOT, False), (EVENTS, REQUEST, True)):
        text = json.dumps(request)
        for condition, wanted in cases:
            got = answer(condition, text, event)
            if got[0] == wanted:
                passed += 1
            else:
                failed += 1
                print(f"{condition}: {' '.join(got)}, not {wanted}")
    print(f"{passed} passed, {failed} failed")
    return 1 if failed else 0


if __name__ == "__main__":
    raise SystemExit(main())
