// Who asked for a change, for the log of changes: the first digits of the SHA-256 digest of the token, as a record of
// indexctl has them. Nobody gets a random token back from these.
import crypto from 'crypto';

const DIGITS = 8;

// The first of these headers, which is the one that the index takes.
function header(r, name) {
    const found = r.rawHeadersIn.find(it => it[0].toLowerCase() === name);
    return found ? found[1].trim() : '';
}

// The token of a change. At /legacy/ it is the password. Elsewhere a password is a reader's, which is never looked at.
function token(r) {
    if (r.uri !== '/legacy/') { return header(r, 'x-index-token'); }
    const words = header(r, 'authorization').split(' ');
    if (words[0].toLowerCase() !== 'basic') { return ''; }
    const login = Buffer.from(words[words.length - 1], 'base64').toString();
    return login.indexOf(':') < 0 ? '' : login.slice(login.indexOf(':') + 1).trim();
}

// A refused text may be a password that somebody sent by mistake, and a password can be guessed by its digest. So it is
// named only if it looks like a token that indexctl makes.
function is_named(r, text) {
    return /^[0-9a-f]{64}$/.test(text) || r.status === 200 || r.status === 201;
}

// A pipeline's password is one of some minutes: the service says as whose it was taken.
function caller(r) {
    const said = r.uri === '/legacy/' && r.variables.upstream_http_x_index_caller;
    if (said) { return said; }
    const text = token(r);
    return text && is_named(r, text) ? crypto.createHash('sha256').update(text).digest('hex').slice(0, DIGITS) : '';
}

export default { caller };
