// node-yaml as a reader: for each `LENGTH\n` and text on standard input the event lines, or `!` and a message, and then a line `.`.
const YAML = require('yaml');
const fs = require('fs');
const MARKS = { QUOTE_DOUBLE: '"', QUOTE_SINGLE: "'", BLOCK_LITERAL: '|', BLOCK_FOLDED: '>' };
const ESCAPES = { '\\': '\\\\', '\n': '\\n', '\r': '\\r', '\t': '\\t', '\b': '\\b', '\0': '\\0' };

function properties(node) {
  return (node.anchor ? ' &' + node.anchor : '') + (node.tag ? ' <' + node.tag + '>' : '');
}

function walk(node, out) {
  if (node === null || node === undefined) {
    out.push('=VAL :');
  } else if (YAML.isAlias(node)) {
    out.push('=ALI *' + node.source);
  } else if (YAML.isMap(node)) {
    out.push('+MAP' + properties(node));
    for (const pair of node.items) {
      walk(pair.key, out);
      walk(pair.value, out);
    }
    out.push('-MAP');
  } else if (YAML.isSeq(node)) {
    out.push('+SEQ' + properties(node));
    // A pair alone stands in a flow sequence for a mapping of one pair.
    for (const item of node.items) walk(item, out);
    out.push('-SEQ');
  } else if (YAML.isPair(node)) {
    out.push('+MAP');
    walk(node.key, out);
    walk(node.value, out);
    out.push('-MAP');
  } else {
    const text = String(node.value === null ? '' : node.value).replace(/[\\\n\r\t\b\0]/g, (c) => ESCAPES[c]);
    out.push('=VAL' + properties(node) + ' ' + (MARKS[node.type] || ':') + text);
  }
}

function events(text) {
  const options = { schema: 'failsafe', uniqueKeys: false, logLevel: 'silent', version: '1.2' };
  const documents = YAML.parseAllDocuments(text, options);
  const out = [];
  if (!Array.isArray(documents)) return out;
  for (const document of documents) {
    if (document.errors.length > 0) return ['!' + document.errors[0].code];
    out.push('+DOC');
    walk(document.contents, out);
    out.push('-DOC');
  }
  return out;
}

const one = Buffer.alloc(1);
function line() {
  let made = '';
  for (;;) {
    if (fs.readSync(0, one, 0, 1, null) === 0) process.exit(0);
    if (one[0] === 10) return made;
    made += String.fromCharCode(one[0]);
  }
}

for (;;) {
  const length = Number(line());
  const bytes = Buffer.alloc(length);
  for (let at = 0; at < length; ) at += fs.readSync(0, bytes, at, length - at, null);
  let said;
  try {
    said = events(bytes.toString('utf8'));
  } catch (error) {
    said = ['!' + String(error.message).split('\n')[0]];
  }
  fs.writeSync(1, said.concat(['.', '']).join('\n'));
}
