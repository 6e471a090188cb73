"""The sources of the references and of what stands between the marks of documents, and what is made of each."""
