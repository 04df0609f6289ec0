// index.d.ts declares what the package has, and nothing else; tsc finds it, and reads each member in types.ts.
import assert from "node:assert/strict";
import { existsSync, readFileSync } from "node:fs";
import { createRequire } from "node:module";
import { dirname, join } from "node:path";
import test from "node:test";

import * as muxandu from "muxandu";

const folder = dirname(createRequire(import.meta.url).resolve("muxandu"));
const declared = readFileSync(join(folder, "index.d.ts"), "utf8");
const used = readFileSync(new URL("types.ts", import.meta.url), "utf8");

const sorted = (names) => [...names].sort();

/** The names that a class has, those of its own calls after `static`. */
function members(made) {
    const classes = [];
    for (let each = made; ![Function.prototype, RangeError].includes(each); each = Object.getPrototypeOf(each)) classes.push(each);
    const own = classes.flatMap((each) => Object.getOwnPropertyNames(each.prototype)).filter((name) => name !== "constructor");
    const statics = classes.flatMap((each) => Object.getOwnPropertyNames(each));
    const named = statics.filter((name) => !["length", "name", "prototype"].includes(name));
    return sorted(new Set([...own, ...named.map((name) => `static ${name}`)]));
}

/** Whether types.ts has a call or a property of that name. */
const isUsed = (name) => new RegExp(`\\.${name.replace("static ", "")}\\b`).test(used);

test("its exports", () => {
    const names = [...declared.matchAll(/^export (?:class|function) (\w+)/gm)].map(([, name]) => name);
    assert.deepEqual(sorted(names), sorted(Object.keys(muxandu)));
});

test("package.json names the declarations", () => {
    const { types, exports } = JSON.parse(readFileSync(join(folder, "package.json"), "utf8"));
    // tsc takes the first condition that it knows
    assert.equal(Object.keys(exports["."])[0], "types");
    for (const path of [types, exports["."].types, exports["."].default]) {
        assert.match(String(path), /^\.\/index\.(d\.ts|js)$/);
        assert.ok(existsSync(join(folder, path)), path);
    }
    assert.equal(types, "./index.d.ts");
    assert.equal(exports["."].types, types);
});

test("no type is any", () => {
    assert.doesNotMatch(declared, /[:<|&,(]\s*(?:any|unknown)\b/);
});

for (const [name, made] of Object.entries(muxandu)) {
    if (!declared.includes(`export class ${name} `)) continue;
    test(`the members of ${name}`, () => {
        const [, body] = declared.match(new RegExp(`^export class ${name} [^{]*\\{\\n([^]*?)^\\}`, "m"));
        const names = [...body.matchAll(/^ {4}(static )?(?:readonly )?(\w+)[(?:]/gm)].map(([, before = "", each]) => before + each);
        // the name of a refusal is kept in each, and where it is and why
        const kept = name === "Refused" ? ["refusal", "place", "reason"] : [];
        assert.deepEqual(sorted(new Set(names.filter((each) => each !== "constructor"))), sorted([...members(made), ...kept]));
        assert.deepEqual(names.filter((each) => each !== "constructor" && !isUsed(each)), [], "types.ts does not use them");
    });
}
