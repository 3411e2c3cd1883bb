"""Writes an answer as one page that needs no server: its features can be switched, and its rows and columns follow."""
import html
import json
import os

import answers

TEMPLATE = os.path.join(os.path.dirname(os.path.abspath(__file__)), "page.html")


def data_of(catalogue, query, parameters, answer):
    fields = [(*answers.named(name), kind) for name, kind in answer.fields[:-1]]
    return {
        "catalogue": os.path.basename(catalogue),
        "query": query,
        "features": [name for name in parameters["vdb_features"].split(",") if name],
        "model": parameters["vdb_model"],
        "error": answer.error,
        "columns": [{"name": name, "condition": condition, "kind": kind} for name, condition, kind in fields],
        "rows": [{"cells": row[:-1], "condition": row[-1]} for row in answer.rows],
    }


def write(out, catalogue, query, parameters, answer):
    with open(TEMPLATE, encoding="utf-8") as file:
        template = file.read()
    # `<` is written as an escape, so that no text of a row can end the script.
    data = json.dumps(data_of(catalogue, query, parameters, answer)).replace("<", "\\u003c")
    with open(out, "w", encoding="utf-8") as file:
        file.write(template.replace("{{title}}", html.escape(query)).replace("{{data}}", data))
