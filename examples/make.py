#!/usr/bin/env python3
"""Makes the bytes in this folder anew: models and jobs of the texts in prescription/, and the jobs in jobs/.

    python3 examples/make.py
"""
import os

from job_pieces import JOBS
from job_text import read_job, text_in, to_job_bytes
from model_text import read_text
from program import HERE
from stored import to_bytes

PRESCRIPTION = os.path.join(HERE, "prescription")


def texts(ending):
    return sorted(name for name in os.listdir(PRESCRIPTION) if name.endswith(ending))


def model_texts():
    return [name for name in texts(".txt") if not name.endswith(".job.txt")]


def job_texts():
    return texts(".job.txt")


def made():
    """Of each file of bytes, its path in this folder and what it holds."""
    files = {f"jobs/{name}.job": data for name, data in JOBS.items()}
    for name in model_texts():
        path = os.path.join(PRESCRIPTION, name)
        files[f"prescription/{name[:-4]}.model"] = to_bytes(read_text(text_in(path), path)[0])
    for name in job_texts():
        path = os.path.join(PRESCRIPTION, name)
        files[f"prescription/{name[:-4]}"] = to_job_bytes(read_job(path), path)
    return files


def main():
    files = made()
    for name, data in files.items():
        with open(os.path.join(HERE, name), "wb") as file:
            file.write(data)
    print(f"{len(files)} files made")


if __name__ == "__main__":
    main()
