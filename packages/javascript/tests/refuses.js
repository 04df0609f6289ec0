// How the tests see that a call refuses something by name.
import assert from "node:assert/strict";

import { Refused } from "muxandu";

/** Sees that a call throws the refusal of that name, with a sentence that says what it means. */
export function refuses(name, call, told) {
    assert.throws(call, (error) => {
        assert.ok(error instanceof Refused && error instanceof RangeError, String(error));
        assert.equal(error.refusal, name, told);
        assert.equal(error.name, "Refused");
        assert.match(error.message, new RegExp(`^${name}: [A-Z].*\\.$`));
        return true;
    }, told);
}
