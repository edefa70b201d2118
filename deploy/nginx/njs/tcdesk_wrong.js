// Wrong passwords: who gives one is slowed for a minute, before the next is looked at.
//
// nginx limits requests before it looks at a password, and this njs has no memory that its processes share. So a wrong password leaves a file, whose time
// tells of the last one. A file stands for some pairs of an address and a name: there are 4,096 at most, whatever names are tried.

import crypto from 'crypto';
import fs from 'fs';

const FOLDER = '/var/lib/nginx/tcdesk';
// how many milliseconds a wrong password counts
const COUNTS = 60000;

// Returns the file of the address and the name of a request, or nothing if it has no login.
function file(r) {
    if (r.headersIn.Authorization === undefined) {
        return '';
    }
    const pair = JSON.stringify([r.remoteAddress, r.variables.remote_user || '']);
    return `${FOLDER}/${crypto.createHash('sha256').update(pair).digest('hex').slice(0, 3)}`;
}

// Returns what the requests are counted under that are limited; nothing if this one is not.
function suspect(r) {
    const path = file(r);
    try {
        return path && Date.now() - fs.statSync(path).mtimeMs < COUNTS ? path : '';
    } catch (e) {
        return '';
    }
}

// Answers a request without a login, or with a wrong one, which it notes.
function answer(r) {
    const path = file(r);
    try {
        if (path) {
            fs.writeFileSync(path, '-');
        }
    } catch (e) {
        r.error(`tcdesk: a wrong password cannot be noted: ${e}`);
    }
    r.return(401);
}

export default { suspect, answer };
