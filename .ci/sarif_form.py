#!/usr/bin/env python3
"""Whether a text is a log of SARIF 2.1.0, and one that servers accept.

    .ci/sarif_form.py FILE...

It prints what is wrong with each file, and its status is 1 if anything is.

OBJECTS has the properties that the standard of OASIS lists for each object that a log of this repository may have, with their kinds and
those that are required; an object has no others. `faults_of` adds what the standard demands in words: indices and links that lead
somewhere, and references that are relative to a base that is there. `unwelcome` has what servers demand beyond the standard.
"""
import json
import re
import sys
from pathlib import Path

GUID = re.compile(r"[0-9a-f]{8}-[0-9a-f]{4}-[1-5][0-9a-f]{3}-[89ab][0-9a-f]{3}-[0-9a-f]{12}")
REFERENCE = re.compile(r"([A-Za-z][A-Za-z0-9+.-]*:)?([A-Za-z0-9._~!$&'()*+,;=:@/?#-]|%[0-9A-Fa-f]{2})*")
LINK = re.compile(r"(?<!\\)\[((?:[^\[\]\\]|\\.)+)\]\(([^()\s]+)\)")
BASE = re.compile(r"file:///(?:[A-Za-z0-9._~/-]|%[0-9A-F]{2})*")
# The objects whose properties are in no table here, since no log of this repository has them.
OTHERS = """address attachment codeFlow conversion edge edgeTraversal exception externalPropertyFileReferences fix graph graphTraversal
logicalLocation locationRelationship node rectangle reportingConfiguration reportingDescriptorRelationship resultProvenance
specialLocations stack suppression threadFlowLocation toolComponentReference translationMetadata versionControlDetails webRequest
webResponse externalProperties configurationOverride artifact runInfo""".split()

LEVEL = "=none|note|warning|error"
# Of each object its properties, in the order of the standard, with their kinds. A kind is `text`, `uri`, `guid`, `time`, `bool`, `rank`,
# `count` (at least 0), `index` (at least -1), `from1` (at least 1), `int`, `=A|B` (one of these words), or the name of an object. `[K]` is
# a list and `<K>` an object with names of one's own. A mark `!` says that the property is required.
OBJECTS = {
    "sarifLog": "$schema uri, version! =2.1.0, runs! [run], inlineExternalProperties [externalProperties], properties bag",
    "run": """externalPropertyFileReferences externalPropertyFileReferences, automationDetails runAutomationDetails,
        runAggregates [runAutomationDetails], baselineGuid guid, tool! tool, language text, taxonomies [toolComponent],
        translations [toolComponent], policies [toolComponent], invocations [invocation], conversion conversion,
        versionControlProvenance [versionControlDetails], originalUriBaseIds <artifactLocation>, specialLocations specialLocations,
        artifacts [artifact], logicalLocations [logicalLocation], addresses [address], threadFlowLocations [threadFlowLocation],
        graphs [graph], webRequests [webRequest], webResponses [webResponse], results [result], defaultEncoding text,
        defaultSourceLanguage text, newlineSequences [text], columnKind =utf16CodeUnits|unicodeCodePoints, redactionTokens [text],
        properties bag""",
    "tool": "driver! toolComponent, extensions [toolComponent], properties bag",
    "toolComponent": """guid guid, name! text, fullName text, product text, productSuite text, semanticVersion text, version text,
        dottedQuadFileVersion text, releaseDateUtc text, downloadUri uri, informationUri uri, organization text,
        shortDescription multiformatMessageString, fullDescription multiformatMessageString, language text,
        globalMessageStrings <multiformatMessageString>, rules [reportingDescriptor], notifications [reportingDescriptor],
        taxa [reportingDescriptor], supportedTaxonomies [toolComponentReference], translationMetadata translationMetadata,
        locations [artifactLocation], contents [text], isComprehensive bool, localizedDataSemanticVersion text,
        minimumRequiredLocalizedDataSemanticVersion text, associatedComponent toolComponentReference, properties bag""",
    "reportingDescriptor": """id! text, deprecatedIds [text], guid guid, deprecatedGuids [guid], name text, deprecatedNames [text],
        shortDescription multiformatMessageString, fullDescription multiformatMessageString,
        messageStrings <multiformatMessageString>, helpUri uri, help multiformatMessageString,
        defaultConfiguration reportingConfiguration, relationships [reportingDescriptorRelationship], properties bag""",
    "multiformatMessageString": "text! text, markdown text, properties bag",
    "message": "text text, markdown text, id text, arguments [text], properties bag",
    "runAutomationDetails": "description message, id text, guid guid, correlationGuid guid, properties bag",
    "invocation": """commandLine text, arguments [text], responseFiles [artifactLocation],
        ruleConfigurationOverrides [configurationOverride], notificationConfigurationOverrides [configurationOverride],
        startTimeUtc time, endTimeUtc time, exitCode int, exitCodeDescription text, exitSignalName text, exitSignalNumber int,
        processStartFailureMessage text, executionSuccessful! bool, machine text, account text, processId int,
        executableLocation artifactLocation, workingDirectory artifactLocation, environmentVariables <text>, stdin artifactLocation,
        stdout artifactLocation, stderr artifactLocation, stdoutStderr artifactLocation,
        toolExecutionNotifications [notification], toolConfigurationNotifications [notification], properties bag""",
    "notification": f"""descriptor reportingDescriptorReference, associatedRule reportingDescriptorReference, locations [location],
        message! message, level {LEVEL}, threadId int, timeUtc time, exception exception, properties bag""",
    "reportingDescriptorReference": "id text, index index, guid guid, toolComponent toolComponentReference, properties bag",
    "result": f"""ruleId text, ruleIndex index, rule reportingDescriptorReference,
        kind =notApplicable|pass|fail|review|open|informational, level {LEVEL}, message! message, analysisTarget artifactLocation,
        locations [location], guid guid, correlationGuid guid, occurrenceCount from1, partialFingerprints <text>, fingerprints <text>,
        stacks [stack], codeFlows [codeFlow], graphs [graph], graphTraversals [graphTraversal], relatedLocations [location],
        suppressions [suppression], baselineState =new|unchanged|updated|absent, rank rank, attachments [attachment],
        hostedViewerUri uri, workItemUris [uri], provenance resultProvenance, fixes [fix], taxa [reportingDescriptorReference],
        webRequest webRequest, webResponse webResponse, properties bag""",
    "location": """id index, physicalLocation physicalLocation, logicalLocations [logicalLocation], message message,
        annotations [region], relationships [locationRelationship], properties bag""",
    "physicalLocation": "address address, artifactLocation artifactLocation, region region, contextRegion region, properties bag",
    "artifactLocation": "uri uri, uriBaseId text, index index, description message, properties bag",
    "region": """startLine from1, startColumn from1, endLine from1, endColumn from1, charOffset index, charLength count,
        byteOffset index, byteLength count, snippet artifactContent, message message, sourceLanguage text, properties bag""",
    "artifactContent": "text text, binary text, rendered multiformatMessageString, properties bag",
}
# The lists whose items differ from each other by the standard.
SETS = ("rules", "taxa", "relatedLocations", "notifications", "taxonomies", "artifacts", "deprecatedIds")
LEAST = {"int": -2**31, "index": -1, "count": 0, "from1": 1}


def properties_of(name):
    """The properties of an object: the kind of each, and whether it is required."""
    found = {}
    for words in OBJECTS[name].split(","):
        key, kind = words.split()
        found[key.rstrip("!")] = (kind, key.endswith("!"))
    return found


PROPERTIES = {name: properties_of(name) for name in OBJECTS}


def simple_fault(value, kind):
    """What is wrong with a value of a kind that is no object and no list. None if the kind is another one."""
    if kind in LEAST:
        return "" if type(value) is int and LEAST[kind] <= value < 2**31 * 2**32 else f"is {value!r}, which is no {kind}"
    if kind == "bool":
        return "" if isinstance(value, bool) else f"is {value!r}, and no truth value"
    if kind == "rank":
        return "" if type(value) in (int, float) and -1 <= value <= 100 else f"is {value!r}, and no rank"
    if kind.startswith("="):
        return "" if value in kind[1:].split("|") else f"is {value!r}"
    patterns = {"text": re.compile(".*", re.S), "uri": REFERENCE, "guid": GUID, "time": re.compile(r"\d{4}-\d\d-\d\dT\d\d:\d\d(:\d\d(\.\d+)?)?Z")}
    if kind in patterns:
        return "" if isinstance(value, str) and patterns[kind].fullmatch(value) else f"is {value!r}, which is no {kind}"
    return None


def form_faults(value, kind, where):
    """What is wrong with the form of a value of this kind."""
    simple = simple_fault(value, kind)
    if simple is not None:
        return [f"{where} {simple}"] if simple else []
    if kind.startswith("["):
        return list_faults(value, kind[1:-1], where)
    if not isinstance(value, dict):
        return [f"{where} is no object"]
    if kind.startswith("<"):
        return [fault for key, it in value.items() for fault in form_faults(it, kind[1:-1], f"{where}[{key!r}]")]
    if kind == "bag" or kind in OTHERS:
        return []
    known = PROPERTIES[kind]
    faults = [f"{where} has the property {key!r}, which {kind} has not" for key in value if key not in known]
    faults += [f"{where} has no {key}" for key, (_, required) in known.items() if required and key not in value]
    return faults + [fault for key, it in value.items() if key in known for fault in form_faults(it, known[key][0], f"{where}.{key}")]


def list_faults(value, kind, where):
    """What is wrong with the form of a list of this kind."""
    if not isinstance(value, list):
        return [f"{where} is no list"]
    faults = [fault for number, it in enumerate(value) for fault in form_faults(it, kind, f"{where}[{number}]")]
    is_set = where.rpartition(".")[2] in SETS
    return faults + [f"{where} has an item twice" for number, it in enumerate(value) if is_set and it in value[:number]]


def artifacts_in(value):
    """Each location of an artifact in a part of a log."""
    if isinstance(value, list):
        return [found for it in value for found in artifacts_in(it)]
    if not isinstance(value, dict):
        return []
    own = [value["artifactLocation"]] if "artifactLocation" in value else []
    return own + [found for it in value.values() for found in artifacts_in(it)]


def reference_faults(run):
    """What is wrong with the bases of a run, and with the references that rest on them."""
    bases, faults = run.get("originalUriBaseIds", {}), []
    for name, base in bases.items():
        uri = base.get("uri")
        if uri is not None and ("uriBaseId" not in base) and not (BASE.fullmatch(uri) and uri.endswith("/")):
            faults.append(f"the base {name} is {uri!r}, which is no absolute reference that ends with a slash")
        if ".." in (uri or "").split("/"):
            faults.append(f"the base {name} has a part '..'")
    for artifact in artifacts_in(run.get("results", [])):
        uri, base = artifact.get("uri", ""), artifact.get("uriBaseId")
        if base is not None and base not in bases:
            faults.append(f"{uri!r} rests on {base}, which is no base")
        if base is not None and (re.match("[A-Za-z][A-Za-z0-9+.-]*:", uri) or uri.startswith("/")):
            faults.append(f"{uri!r} is absolute, and rests on {base}")
    return faults


def result_faults(result, rules):
    """What is wrong with a result beyond its form, in a run with these rules."""
    faults, index = [], result.get("ruleIndex", -1)
    if index >= len(rules):
        faults.append(f"a result has the rule {index}, and there are {len(rules)}")
    elif index >= 0 and not f"{result.get('ruleId')}/".startswith(rules[index]["id"] + "/"):
        faults.append(f"a result is of {result.get('ruleId')!r}, and its rule is {rules[index]['id']!r}")
    if result.get("kind", "fail") != "fail" and result.get("level", "none") != "none":
        faults.append("a result is no failure and has a level")
    ids = [it["id"] for it in result.get("relatedLocations", []) + result.get("locations", []) if it.get("id", -1) >= 0]
    if len(set(ids)) != len(ids):
        faults.append("two locations of a result share an id")
    links = [target for _, target in LINK.findall(result["message"].get("text", ""))]
    faults += [f"a message has a link to {target}, which is no location" for target in links if target.isdigit() and int(target) not in ids]
    if not result["message"].get("text") and not result["message"].get("id"):
        faults.append("a message is empty")
    return faults


def faults_of(log):
    """What is wrong with a log by the standard."""
    faults = form_faults(log, "sarifLog", "the log")
    if faults:
        return faults
    for run in log["runs"]:
        rules = run["tool"]["driver"].get("rules", [])
        ids = [rule["id"] for rule in rules]
        faults += [f"the rule {rule} is there twice" for number, rule in enumerate(ids) if rule in ids[:number]]
        faults += reference_faults(run)
        faults += [fault for result in run.get("results", []) for fault in result_faults(result, rules)]
    return faults


def unwelcome(log):
    """What a server does not accept of a log, or does not show, although the standard allows it."""
    faults = []
    for run in log["runs"]:
        if not run.get("automationDetails", {}).get("id", "").endswith("/"):
            faults.append("the run has no category in automationDetails.id")
        for rule in run["tool"]["driver"].get("rules", []):
            faults += [f"the rule {rule['id']} has no {key}" for key in ("shortDescription", "fullDescription", "help") if not rule.get(key, {}).get("text")]
        for result in run.get("results", []):
            faults += [f"a result of {result.get('ruleId')} {fault}" for fault in unplaced(result)]
    return faults


def unplaced(result):
    """What a server needs of a result to show it at a line, and to know it again."""
    faults = [] if result.get("locations") else ["has no location"]
    for location in result.get("locations", []) + result.get("relatedLocations", []):
        physical = location.get("physicalLocation", {})
        faults += [] if physical.get("artifactLocation", {}).get("uri") else ["has a location without a file"]
    for location in result.get("locations", []):
        faults += [] if location.get("physicalLocation", {}).get("region", {}).get("startLine") else ["has a location without a line"]
    if not result.get("partialFingerprints", {}).get("primaryLocationLineHash"):
        faults.append("has no fingerprint")
    targets = {target for _, target in LINK.findall(result["message"]["text"])}
    related = {str(it.get("id")) for it in result.get("relatedLocations", [])}
    return faults + ([] if related <= targets else ["has related locations to which its message does not link"])


def main():
    failed = False
    for name in sys.argv[1:]:
        try:
            log = json.loads(Path(name).read_bytes().decode())
            faults = faults_of(log) or unwelcome(log)
        except (OSError, ValueError) as error:
            faults = [str(error)]
        failed |= bool(faults)
        for fault in faults:
            print(f"{name}: {fault}")
    return 1 if failed else 0


if __name__ == "__main__":
    if len(sys.argv) == 1:
        sys.exit(__doc__)
    sys.exit(main())
