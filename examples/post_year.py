#!/usr/bin/env python3
"""post_year.py URL: a client that is made from docs/openapi.yaml, with a method for each operationId. It posts the acts of examples/first-month.jsonl
and examples/first-year.jsonl, asks their questions in between, and then each of the seven questions once. It prints each answer; a refusal is one too.

    ./office --book year.book serve 8052 1 1
    examples/post_year.py http://127.0.0.1:8052

It needs PyYAML (Debian's python3-yaml)."""
import functools, http.client, json, os, sys, urllib.parse
import yaml

TOP = os.path.dirname(os.path.dirname(os.path.abspath(__file__)))
QUESTIONS = [("getHousehold", 2), ("getRecord", 1, 1), ("getPaid", 1, "2024-01"), ("getNext", 2, "2025-02-15"), ("getVoucher", "2024-04"), ("getDue", "2025-09-03"),
             ("getTargets", "2024-03-31")]


class Client:
    """Its methods take the parts of the target in the document's order, and of an act the body; they give the status and the answer."""

    def __init__(self, url, document):
        self.document, self.connection = document, http.client.HTTPConnection(urllib.parse.urlsplit(url).netloc, timeout=60)
        for path, methods in document["paths"].items():
            for method, told in methods.items():
                setattr(self, told["operationId"], functools.partial(self.call, method.upper(), path, told))

    def found(self, node):
        """What a reference of the document refers to."""
        return functools.reduce(lambda part, name: part[name], node["$ref"][2:].split("/"), self.document) if "$ref" in node else node

    def call(self, method, path, told, *values):
        for parameter, value in zip(map(self.found, told.get("parameters", [])), values):
            path = path.replace("{%s}" % parameter["name"], str(value))
        body = self.body(told["requestBody"], *values) if "requestBody" in told else None
        self.connection.request(method, path, body, {"content-type": "application/json"} if body else {})
        response = self.connection.getresponse()
        answer = response.read().decode()
        if str(response.status) not in told["responses"]:
            raise SystemExit(f"{method} {path}: the document has no status {response.status}")
        return response.status, answer

    def body(self, told, values):
        """The members that the document requires, which leaves out `today`: over HTTP an act has the day of the server's clock."""
        schema = self.found(told["content"]["application/json"]["schema"])
        return json.dumps({name: values[name] for name in schema["required"]})


def answer(client, line):
    if "ask" not in line:
        return client.postAct(line)
    kind, *values = line["ask"].values()
    return getattr(client, "get" + kind.capitalize())(*values)


def main(url):
    with open(f"{TOP}/docs/openapi.yaml", encoding="utf-8") as page:
        client = Client(url, yaml.safe_load(page))
    for name in ("first-month", "first-year"):
        with open(f"{TOP}/examples/{name}.jsonl", encoding="utf-8") as lines:
            for line in lines:
                print(answer(client, json.loads(line))[1])
    for name, *values in QUESTIONS:
        print(getattr(client, name)(*values)[1])
    client.connection.close()


if __name__ == "__main__":
    if len(sys.argv) != 2:
        raise SystemExit("usage: post_year.py URL")
    main(sys.argv[1])
