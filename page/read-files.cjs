// Lets Node read the files of this folder's repository as a browser requests them from a local server.
'use strict';
const fs = require('fs');

globalThis.XMLHttpRequest = class {
  open(_, url) {
    this.url = url;
  }

  send() {
    this.responseText = fs.readFileSync(this.url, 'utf8');
  }
};
