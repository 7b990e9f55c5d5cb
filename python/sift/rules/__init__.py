"""The rules of documents and of reports, for the places at which they are broken. What is refused the program alone decides."""
