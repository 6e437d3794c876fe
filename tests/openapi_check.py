"""Whether exchanges with the office are those that docs/openapi.yaml tells. check_exchange gives the faults of one as texts, none if it is as
told, and COUNTS what was checked; summary is that in a line. It needs jsonschema and PyYAML, whichever Python has them."""
import collections, functools, json, os, re, threading

try:
    import jsonschema, yaml
except ImportError as missing:
    raise ImportError(f"this Python has no {missing.name}: docs/openapi.yaml can't be checked without Debian's python3-jsonschema and python3-yaml") from None

PAGE = os.path.join(os.path.dirname(os.path.dirname(os.path.abspath(__file__))), "docs", "openapi.yaml")
METHODS = {"get", "put", "post", "delete", "options", "head", "patch", "trace"}
# A message that can't be read is answered before its target is looked at.
BEFORE_ROUTES = {"400", "413", "431", "501"}
# The office has looked at a request of the right form before it answers so.
TOOK_THE_FORM = {"200", "201", "409", "503"}
REPEATED = "#/components/schemas/Facts"
KEPT = 1 << 17


# ---- schemas that jsonschema reads quickly

def chosen(validator, choices, instance, schema):
    """The schema that the discriminator names, instead of a try of each."""
    word = instance.get(schema["x-chooser"]) if isinstance(instance, dict) else None
    if isinstance(word, str) and word in choices:
        yield from validator.descend(instance, choices[word])
    else:
        yield jsonschema.ValidationError(f"{word!r} is none of its kinds")


GOOD = {}


def repeated(validator, told, instance, schema):
    """The same facts come in many requests: those that were found good aren't looked at again."""
    key = (id(told), json.dumps(instance))
    if key not in GOOD:
        faults = list(validator.descend(instance, told))
        yield from faults
        if not faults:
            GOOD[key] = told


def has_other_members(schema, instance):
    """The schema is of a closed object, and the value can't be one by its members' names alone."""
    is_closed = schema.get("additionalProperties") is False
    return is_closed and not (isinstance(instance, dict) and set(schema["required"]) <= set(instance) <= set(schema["properties"]))


def one_of(validator, choices, instance, schema):
    """As jsonschema's own, but what can't fit by its members' names isn't tried."""
    fitting = [it for it in choices if not has_other_members(it, instance) and not any(validator.descend(instance, it))]
    if len(fitting) != 1:
        yield jsonschema.ValidationError(f"{instance!r:.200} is {len(fitting)} of the {len(choices)} that it may be")


Validator = jsonschema.validators.extend(jsonschema.Draft202012Validator, {"x-choices": chosen, "x-repeated": repeated, "oneOf": one_of})


class Schemas:
    """The document's schemas, with what they refer to put in its place. Plain ones have nothing that only this module knows."""

    def __init__(self, document, are_plain=False):
        self.document, self.are_plain, self.found = document, are_plain, {}

    def at(self, pointer):
        if pointer not in self.found:
            made = self.whole(self.raw(pointer))
            self.found[pointer] = {"x-repeated": made} if pointer == REPEATED and not self.are_plain else made
        return self.found[pointer]

    def raw(self, pointer):
        return functools.reduce(lambda node, step: node[step.replace("~1", "/")], pointer[2:].split("/"), self.document)

    def whole(self, node):
        if isinstance(node, list):
            return [self.whole(it) for it in node]
        if not isinstance(node, dict):
            return node
        if isinstance(node.get("$ref"), str):
            beside = {name: it for name, it in node.items() if name not in ("$ref", "description")}
            return {"allOf": [self.at(node["$ref"]), self.whole(beside)]} if beside else self.at(node["$ref"])
        made = {name: self.whole(it) for name, it in node.items() if name not in ("discriminator", "examples")}
        if "discriminator" in node and not self.are_plain:
            del made["oneOf"]
            made["x-chooser"] = node["discriminator"]["propertyName"]
            made["x-choices"] = {word: self.at(pointer) for word, pointer in node["discriminator"]["mapping"].items()}
        if isinstance(node.get("pattern"), str) and node["pattern"].endswith("$"):
            # In Python `$` also matches before a line end that is last.
            made["pattern"] = node["pattern"][:-1] + r"\Z"
        return made


def first_fault(validator, value):
    """The first fault of the value as a text, empty if there is none."""
    fault = next(validator.iter_errors(value), None)
    if fault is None:
        return ""
    place = "".join(f"[{it}]" if isinstance(it, int) else f".{it}" for it in fault.absolute_path).lstrip(".")
    return f"{place or 'the whole'}: {fault.message[:300]}"


# ---- JSON

def no_constant(word):
    raise ValueError(f"{word} is no JSON")


def no_fraction(number):
    raise ValueError(f"the number {number} has a fraction or an exponent")


def value_of(text, **how):
    """The value of JSON in UTF-8, or ValueError."""
    try:
        return json.loads(text.decode() if isinstance(text, bytes) else text, parse_constant=no_constant, **how)
    except RecursionError:
        raise ValueError("it is nested too deep") from None


# ---- the document

class Operation:
    def __init__(self, path, method, told, schemas):
        self.name, self.method, self.path = told["operationId"], method.upper(), path
        self.target = re.compile(re.sub(r"\\\{(\w+)\\\}", r"(?P<\1>[^/]+)", re.escape(path)), re.DOTALL)
        self.parameters = {it["name"]: Parameter(it["schema"]) for it in map(schemas.whole, told.get("parameters", []))}
        self.body = Body(schemas.whole(told["requestBody"])) if "requestBody" in told else None
        self.responses = {status: Response(schemas.whole(it)) for status, it in told["responses"].items()}

    def fault_of_target(self, named):
        """The first part of the target that isn't of its form, with its fault."""
        for name, text in named.items():
            fault = self.parameters[name].fault(text)
            if fault:
                return "{%s}" % name, fault
        return "", ""


class Parameter:
    """A value that is told by a text, in the target or in a header."""

    def __init__(self, schema):
        self.is_number, self.validator = schema.get("type") == "integer", Validator(schema)
        self.fault = functools.lru_cache(KEPT)(self.fault)

    def fault(self, text):
        if self.is_number and not re.fullmatch("[0-9]+", text):
            return f"{text!r} is no number"
        # Python reads no number of more than 4,300 digits. The first thousand are above any maximum all the same.
        return first_fault(self.validator, int(text.lstrip("0")[:1000] or "0") if self.is_number else text)


class Body:
    """JSON of one schema."""

    def __init__(self, told):
        (self.kind, content), = told["content"].items()
        self.schema = content["schema"]
        self.validator = Validator(self.schema)
        self.read = functools.lru_cache(KEPT)(self.read)

    def read(self, text, of_the_office):
        """The value and its fault; only a client may write a fraction or an exponent."""
        try:
            value = value_of(text, parse_float=no_fraction if of_the_office else float)
        except ValueError as fault:
            return None, f"no JSON: {fault}"
        return value, first_fault(self.validator, value)


class Response(Body):
    def __init__(self, told):
        super().__init__(told)
        self.headers = {name.lower(): (it.get("required", False), Parameter(it["schema"])) for name, it in told.get("headers", {}).items()}

    def header_faults(self, pairs):
        names = [name for name, _ in pairs]
        faults = [f"the header {name} stands twice" for name in set(names) if names.count(name) > 1]
        faults += [f"the header {name} is missing" for name, (is_required, _) in self.headers.items() if is_required and name not in names]
        faults += [] if "content-type" in names else ["the header content-type is missing"]
        return faults + [it for it in (self.header_fault(name, value) for name, value in pairs) if it]

    def header_fault(self, name, value):
        if name == "content-type":
            return "" if value == self.kind else f"the content-type is {value}"
        if name not in self.headers:
            return f"the header {name} isn't told of"
        fault = self.headers[name][1].fault(value)
        return fault and f"the header {name}: {fault}"


class Document:
    def __init__(self, page=PAGE):
        with open(page, encoding="utf-8") as file:
            self.told = yaml.load(file, getattr(yaml, "CSafeLoader", yaml.SafeLoader))
        schemas = Schemas(self.told)
        self.schemas = schemas
        self.operations = [Operation(path, method, it, schemas) for path, item in self.told["paths"].items() for method, it in item.items() if method in METHODS]
        self.acts = schemas.at("#/components/schemas/Act")["x-choices"]
        self.makes = {kind: Validator(schemas.at("#/components/schemas/" + it["x-makes"])) for kind, it in self.acts.items()}
        self.counts, self.lock = collections.Counter(), threading.Lock()

    def count(self, *words):
        with self.lock:
            self.counts.update(words)

    # ---- what may answer

    def route(self, method, target):
        """The operation with the parts that its target names, and how many routes have the target."""
        matches = [(it, match) for it in self.operations if (match := it.target.fullmatch(target.split("?")[0]))]
        for operation, match in matches:
            if operation.method == method:
                return operation, match.groupdict(), len(matches)
        return None, {}, len(matches)

    def may_answer(self, method, target, status):
        """The responses that the document has for the status."""
        if target is None:
            return [it.responses[status] for it in self.operations if status in it.responses]
        operation, _, routes = self.route(method, target)
        if operation:
            return [operation.responses[status]] if status in operation.responses and status not in ("404", "405") else []
        if status in BEFORE_ROUTES | {"405" if routes else "404"}:
            return [it.responses[status] for it in self.operations][:1]
        return []

    # ---- an exchange

    def check_exchange(self, method, target, request_headers, request_body, status, response_headers, response_body):
        """The faults of an exchange. The method and the target are None if the request has none that can be read."""
        status, pairs = str(status), pairs_of(response_headers)
        responses = self.may_answer(method, target, status)
        self.count("exchanges", f"status {status}")
        if not responses:
            return [f"{method} {target}: the status {status} isn't told of"]
        found = [self.response_faults(it, method, pairs, response_body) for it in responses]
        faults = min(found, key=len)
        if asks_for_the_end(request_headers) and ("connection", "close") not in pairs:
            faults = faults + ["the request asks for the end of the connection, and the answer doesn't tell it"]
        if target is not None and not faults:
            faults = self.request_faults(method, target, request_body, status, responses[0], response_body)
        return [f"{method} {target} {status}: {it}" for it in faults]

    def response_faults(self, response, method, pairs, body):
        if method == "HEAD" and not body:
            return response.header_faults(pairs)
        fault = response.read(body, True)[1]
        length = len(body if isinstance(body, bytes) else body.encode())
        told = [value for name, value in pairs if name == "content-length" and value != str(length)]
        return response.header_faults(pairs) + ([f"the body: {fault}"] if fault else []) + [f"the content-length {it} of {length} bytes" for it in told]

    def request_faults(self, method, target, body, status, response, answer):
        operation, named, _ = self.route(method, target)
        if not operation or status not in TOOK_THE_FORM | {"422"}:
            return []
        part, fault = operation.fault_of_target(named)
        value = None
        if not fault and operation.body:
            value, fault = operation.body.read(body or b"", False)
        told = response.read(answer, True)[0]
        if status == "422":
            self.count("refused for the form, and the schema refuses it" if fault else "refused for the form, though the schema accepts it")
            return [f"the path isn't {part}"] if part and told["refused"]["path"] != part else []
        self.count("requests of the form")
        if fault:
            return [f"the request: {fault}"]
        return self.act_faults(value["act"]["kind"], status, told) if operation.body else []

    def act_faults(self, kind, status, told):
        """What the act made is what its kind makes, and a refusal is one that its kind can meet."""
        if status == "201":
            fault = first_fault(self.makes[kind], told["made"])
            return [f"what {kind} made: {fault}"] if fault else []
        if status == "409" and told["refused"]["number"] not in self.acts[kind]["x-refusals"]:
            return [f"{kind} can't be refused as {told['refused']['kind']}"]
        return []

    def summary(self):
        statuses = ", ".join(f"{count} of {name[7:]}" for name, count in sorted(self.counts.items()) if name.startswith("status "))
        refused, passed = self.counts["refused for the form, and the schema refuses it"], self.counts["refused for the form, though the schema accepts it"]
        return (f"{self.counts['exchanges']} exchanges checked by docs/openapi.yaml ({statuses}): {self.counts['requests of the form']} requests were taken and are of its form; "
                f"of {refused + passed} refused for their form its schemas refuse {refused}")


def pairs_of(headers):
    """Names in small letters with their values, of a mapping or of pairs."""
    return [(name.lower(), value.strip()) for name, value in (headers.items() if hasattr(headers, "items") else headers or [])]


def asks_for_the_end(request_headers):
    return any(name == "connection" and value.lower() == "close" for name, value in pairs_of(request_headers))


ONE = threading.Lock()


def document():
    """The one whose counts summary tells, also if several threads ask for it at once."""
    with ONE:
        return the_document()


@functools.lru_cache(None)
def the_document():
    return Document()


def check_exchange(method, target, request_headers, request_body, status, response_headers, response_body):
    return document().check_exchange(method, target, request_headers, request_body, status, response_headers, response_body)


def summary():
    return document().summary()
