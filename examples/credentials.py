"""Prints the ICE servers of a web page, with credentials that expire in a day: credentials.py SECRET-FILE URL [NAME]"""

import base64, hashlib, hmac, json, pathlib, sys, time

DAY = 86_400  # in seconds


def read_secret(path):
    """Returns the secret that a file has on its first line, without the end of the line."""
    return pathlib.Path(path).read_bytes().split(b"\n")[0].removesuffix(b"\r")


def ice_servers(secret, url, *name, lifetime=DAY):
    """Returns the ICE servers of a page: the URL, a name that expires after a lifetime in seconds, and its password."""
    username = ":".join([str(int(time.time()) + lifetime), *name])
    digest = hmac.new(secret, username.encode(), hashlib.sha1).digest()
    return [{"urls": url, "username": username, "credential": base64.b64encode(digest).decode()}]


if __name__ == "__main__":
    print(json.dumps(ice_servers(read_secret(sys.argv[1]), *sys.argv[2:])))
