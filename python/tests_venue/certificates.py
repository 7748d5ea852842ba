"""Certificates for tests, by openssl."""
import pathlib
import subprocess

ECDSA = "ec -pkeyopt ec_paramgen_curve:prime256v1"


def certificate(
    folder: pathlib.Path, name: str, days: int = 30, kind: str = ECDSA
) -> list[str]:
    """A certificate and its key, as words of a venue."""
    cert, key = folder / "cert.pem", folder / "key.pem"
    words = f"openssl req -x509 -newkey {kind} -nodes"
    files = ["-subj", f"/CN={name}", "-keyout", str(key), "-out", str(cert), "-days", str(days)]
    named = ["-addext", "subjectAltName=IP:127.0.0.1"]
    subprocess.run([*words.split(), *files, *named], check=True, capture_output=True)
    return ["--tls-cert", str(cert), "--tls-key", str(key)]
