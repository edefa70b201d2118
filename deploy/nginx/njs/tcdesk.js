// What a login may send the desk: acts and loads of its own name, and none of another's.
//
// The desk takes the key `by` of a body as it is given. Here it has to be the name of who logged in, which the site has put into $tcdesk_login.
// The desk is not sent the bytes that came. It is sent what was read of them, written anew. So two readings of one body cannot differ: of a key
// that comes twice, of one that is spelled by escapes, or of whatever else two readers take in two ways.

import body from 'tcdesk_body.js';
import countersign from 'tcdesk_countersign.js';
import rights from 'tcdesk_rights.js';
import sign from 'tcdesk_sign.js';
import told from 'tcdesk_answer.js';
import wrong from 'tcdesk_wrong.js';

// The keys that the desk looks at. It ignores all others, and they are not sent to it.
const LOAD = ['by', 'csv', 'moment', 'name', 'number'];
const KEYS = {'/acts': sign.KEYS, '/stacks': LOAD, '/procedures': LOAD};

// Asks the desk, and answers as it does. Whatever goes wrong from here on is a 502 or a 504: the act may have been done.
async function ask(r, text) {
    try {
        const reply = await r.subrequest(`/tcdesk-internal${r.variables.request_uri}`, {method: 'POST', body: text});
        const came = reply.responseBuffer, head = reply.headersOut;
        if (reply.status === 504) {
            told.unknown(r, 504);
        } else if (head['Content-Type'] !== 'application/json' || Number(head['Content-Length']) !== came.length) {
            told.unknown(r, 502);
        } else {
            // three machines that keep one desk say which place of their log an answer is of
            if (head['Tcdesk-Place'] !== undefined) {
                r.headersOut['Tcdesk-Place'] = head['Tcdesk-Place'];
            }
            told.answer(r, reply.status, came);
        }
    } catch (e) {
        r.error(`tcdesk: ${e}`);
        told.unknown(r, 502);
    }
}

async function post(r) {
    const path = r.variables.request_uri, keys = KEYS[path], login = r.variables.tcdesk_login;
    if (!keys || r.method !== 'POST') {
        return told.answer(r, keys ? 405 : 404, told.BAD_TEXT);
    }
    const why = told.foreign(r, false);
    if (why) {
        return told.refuse(r, why);
    }
    const found = body.read(r, keys);
    if (!found) {
        return told.answer(r, 400, told.BAD_TEXT);
    }
    if (!login || body.text(found.by) !== login) {
        return told.refuse(r, 'by is not the name of the login');
    }
    const act = path === '/acts' ? body.text(found.act) || '' : undefined;
    const lack = rights.lack(r.variables.tcdesk_roles, act);
    if (lack) {
        return told.refuse(r, lack);
    }
    const text = body.written(found, keys);
    if (sign.isStep(act)) {
        const second = sign.second(act);
        if (!second) {
            return told.answer(r, 400, told.BAD_TEXT);
        }
        const unsigned = second === '-' ? '' : sign.unsigned(r, second, login, text);
        if (unsigned) {
            return told.refuse(r, unsigned);
        }
    }
    return ask(r, text);
}

export default { post, given: told.given, countersign: countersign.countersign, suspect: wrong.suspect, wrong: wrong.answer };
